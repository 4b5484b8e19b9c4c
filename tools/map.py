#!/usr/bin/env python3
"""Shows the network of a store in a web browser: serves one page, to this machine alone, over a session of the store.

Use: map.py NAME [--port PORT] [--opl FILE] [--program FILE]

NAME is a store's name: that of its files NAME.a and NAME.b, without the ending. The address to open is printed, as
http://127.0.0.1:PORT/, and Ctrl-C ends. On the page one looks at roads and closed turns, asks how to reach a node and
whether a drive is legal, and sends changes, which the store keeps (docs/LOOK.md).

--port PORT     the port; a free one where none is given
--opl FILE      the lines of which the store was made: the page then shows names and tags of ways and restrictions
--program FILE  the program osmroad; where none is given, the one that tools/session.py takes

Status 0: it was ended by Ctrl-C or SIGTERM, and the session ended well. 1: other arguments, or a port that isn't free.
2: the OPL can't be read. 3 to 10, 127, and from 129 on: the session did not begin or did not end well, as
tools/session.py tells. Each but 0 comes with one line on standard error.
"""
import argparse
import html
import json
import os
import re
import secrets
import signal
import socketserver
import sys
import threading
from http.server import BaseHTTPRequestHandler

sys.dont_write_bytecode = True      # the import below leaves no folder beside the tools
import session as client            # noqa: E402
from session import Trouble, say    # noqa: E402

HERE = os.path.dirname(os.path.realpath(__file__))
LARGEST_CHANGE = 2 ** 26        # bytes of a change that the page sends
LARGEST_QUESTION = 2 ** 20      # and of any other body
STEP = re.compile(r'w-?[0-9]{1,19}\.[0-9]{1,10}[+-]')
NODE = re.compile(r'-?[0-9]{1,19}')
KEY = re.compile(r'[wr]-?[0-9]{1,19}')
POLICY = ("default-src 'none'; script-src 'nonce-{0}'; style-src 'nonce-{0}'; connect-src 'self'; img-src data:; "
          "base-uri 'none'; form-action 'none'; frame-ancestors 'none'")


class NoAnswer(Exception):
    """What a request gets in place of an answer: an HTTP status, and one line."""

    def __init__(self, status, line):
        super().__init__(line)
        self.status = status


# ------------------------------------------------------------------------------------------------------- names and tags


def unescaped(text):
    """The text of a key, a value or a role of OPL."""
    def character(found):
        code = int(found.group(1), 16)
        return chr(code) if code < 0x110000 else found.group(0)
    return re.sub('%([0-9a-fA-F]{1,6})%', character, text.decode('utf-8', 'replace'))


class Tags:
    """What lines of OPL tell of roads and restrictions: of each the first line with the greatest version."""

    def __init__(self):
        self.entries = {}       # the key of an object, as b'w201', to its version, and its fields T and M

    def take(self, lines):
        for line in lines:
            if line[:1] in (b'w', b'r') and (b'highway=' in line or b'restriction' in line or b' dD' in line):
                fields = line.split()
                self.take_object(fields[0], {field[:1]: field[1:] for field in fields[1:]})

    def take_object(self, key, fields):
        version = int(fields[b'v']) if fields.get(b'v', b'').isdigit() else 0
        if key not in self.entries or version > self.entries[key][0]:
            self.entries[key] = (version, fields.get(b'T', b''), fields.get(b'M', b''))

    def read(self, name):
        try:
            with open(name, 'rb') as file:
                self.take(file)
        except OSError as error:
            raise Trouble(2, f'{name}: {error.strerror}') from None

    def told(self, key):
        """The tags of an object, and the members of a restriction; None where no line told of it."""
        if key.encode() not in self.entries:
            return None
        _, tags, members = self.entries[key.encode()]
        pairs = [tag.partition(b'=') for tag in tags.split(b',') if tag]
        roles = [member.partition(b'@') for member in members.split(b',') if member]
        return {'tags': {unescaped(name): unescaped(value) for name, _, value in pairs},
                'members': [[name.decode('ascii', 'replace'), unescaped(role)] for name, _, role in roles]}


# ---------------------------------------------------------------------------------------------------------- the answers


def words_in(body, form, what):
    """The words of a body, each of which must be in this form."""
    words = body.decode('utf-8', 'replace').split()
    for word in words:
        if not form.fullmatch(word):
            raise NoAnswer(400, f'not {what}: {word[:40]}')
    return words


def first_needed(session, steps, verdict):
    """From which of the steps on the restriction that the last one breaks is broken: where its word begins.

    Fewer steps hold fewer words of restrictions, so that it is broken by those from here on, and by no fewer.
    """
    low, high = 0, verdict.step - 1
    while low < high:
        middle = (low + high + 1) // 2
        again = session.drive(steps[middle:verdict.step])
        if (again.rule, again.step) == (verdict.rule, verdict.step - middle):
            low = middle
        else:
            high = middle - 1
    return low + 1


class Answers:
    """What the page can ask. The session is one conversation, so one request is answered after another."""

    def __init__(self, session, tags):
        self.session = session
        self.tags = tags
        self.turn = threading.Lock()
        self.of = {'/state': self.state, '/graph': self.graph}
        self.to = {'/drive': self.drive, '/reach': self.reach, '/change': self.change, '/tags': self.tags_of}

    def answer(self, path, query, body):
        """The answer's bytes, or what JSON is made of. The body is None where the request was a GET."""
        question = (self.of if body is None else self.to).get(path)
        if question is None:
            other = path in self.of or path in self.to
            raise NoAnswer(405 if other else 404, 'another method is wanted' if other else 'there is no such page')
        try:
            with self.turn:
                return question() if body is None else question(body, query)
        except client.SessionError as error:
            raise NoAnswer(503, f'the session has ended: {error}') from None
        except client.UnknownMessage:
            raise NoAnswer(400, 'the program knows no such message: a number may be too large') from None
        except client.NoNode as error:
            raise NoAnswer(404, str(error)) from None
        except client.OutOfSequence as error:
            raise NoAnswer(409, f'{error}: load the page again') from None
        except client.Faulty as error:
            raise NoAnswer(422, f'line {error.line} field {error.field} {error.kind}') from None

    def state(self):
        state = self.session.state()
        return {**state._asdict(), 'sequence': str(state.sequence)}     # a number that a browser would round

    def graph(self):
        return self.session.graph()

    def drive(self, body, _):
        steps = words_in(body, STEP, 'a step such as w12.3+')
        if not steps:
            raise NoAnswer(400, 'a drive has one step at least')
        verdict = self.session.drive(steps)
        needed = not verdict.legal and verdict.rule.startswith(('no ', 'only '))
        return {**verdict._asdict(), 'first': first_needed(self.session, steps, verdict) if needed else None}

    def reach(self, body, _):
        nodes = words_in(body, NODE, "a node's number")
        if len(nodes) != 2:
            raise NoAnswer(400, 'two nodes are wanted')
        return {'steps': self.session.reach(*nodes)}

    def change(self, body, number):
        if not re.fullmatch('[0-9]{1,20}', number):
            raise NoAnswer(400, 'the number of the change is wanted, as in /change?2')
        try:
            self.session.frame(int(number), body)
        except ValueError as error:
            raise NoAnswer(400, f'{error}: the lines alone are wanted') from None
        self.tags.take(body.splitlines())
        return {'applied': int(number)}

    def tags_of(self, body, _):
        told = {key: self.tags.told(key) for key in words_in(body, KEY, 'a way or a relation')}
        return {key: told[key] for key in told if told[key] is not None}


# ----------------------------------------------------------------------------------------------------------- the server


def whole_page():
    """The page with its scripts in it, so that a browser asks for nothing more."""
    parts = {}
    for name in ('page.html', 'graph.js', 'draw.js', 'panel.js'):
        with open(os.path.join(HERE, 'map', name), encoding='utf-8') as file:
            parts[name] = file.read()
    page = parts.pop('page.html')
    for name, script in parts.items():
        page = page.replace('{{%s}}' % name, script)
    return page


class Server(socketserver.ThreadingMixIn, socketserver.TCPServer):
    """Takes requests at 127.0.0.1 alone. A browser opens connections ahead, so each has its thread."""
    daemon_threads = True
    allow_reuse_address = True
    request_queue_size = 64

    def __init__(self, port, store, answers):
        super().__init__(('127.0.0.1', port), Request)
        port = self.server_address[1]
        self.hosts = [name + (f':{port}' if port != 80 else '') for name in ('127.0.0.1', 'localhost')]
        self.token = secrets.token_urlsafe(24)
        self.answers = answers
        self.page = whole_page().replace('{{token}}', self.token)
        self.page = self.page.replace('{{store}}', html.escape(os.path.basename(store)))

    def handle_error(self, request, client_address):
        error = sys.exc_info()[1]
        if not isinstance(error, OSError):      # else the browser left before its answer
            print(f'map.py: {type(error).__name__}: {error}', file=sys.stderr)


class Request(BaseHTTPRequestHandler):
    timeout = 60
    server_version = 'osmroad-map'
    sys_version = ''
    error_message_format = '%(message)s\n'
    error_content_type = 'text/plain; charset=utf-8'

    def do_GET(self):
        self.put_answer(with_body=False)

    def do_POST(self):
        self.put_answer(with_body=True)

    def put_answer(self, with_body):
        path, _, query = self.path.partition('?')
        try:
            if self.headers.get('Host') not in self.server.hosts:
                raise NoAnswer(403, 'another host is asked for')
            if path == '/' and not with_body:
                self.put_page()
                return
            token = self.headers.get('X-Token', '')
            if not secrets.compare_digest(token.encode('utf-8', 'replace'), self.server.token.encode()):
                raise NoAnswer(403, 'the token is another one: load the page again')
            answer = self.server.answers.answer(path, query, self.body(path) if with_body else None)
        except NoAnswer as error:
            self.put(error.status, 'text/plain; charset=utf-8', f'{error}\n'.encode('utf-8', 'replace'))
            return
        if isinstance(answer, bytes):
            self.put(200, 'application/octet-stream', answer)
        else:
            self.put(200, 'application/json', json.dumps(answer).encode())

    def body(self, path):
        size = self.headers.get('Content-Length', '')
        if not re.fullmatch('[0-9]{1,20}', size):
            raise NoAnswer(411, 'the length of the body is wanted')
        most = LARGEST_CHANGE if path == '/change' else LARGEST_QUESTION
        if int(size) > most:
            raise NoAnswer(413, f'more than {most} bytes')
        body = self.rfile.read(int(size))
        if len(body) < int(size):
            raise NoAnswer(400, 'the body ends early')
        return body

    def put_page(self):
        nonce = secrets.token_urlsafe(18)
        page = self.server.page.replace('{{nonce}}', nonce).encode()
        self.put(200, 'text/html; charset=utf-8', page, ('Content-Security-Policy', POLICY.format(nonce)))

    def put(self, status, kind, body, *more):
        self.send_response(status)
        always = [('Content-Type', kind), ('Content-Length', str(len(body))), ('Cache-Control', 'no-store'),
                  ('X-Content-Type-Options', 'nosniff'), ('Referrer-Policy', 'no-referrer'),
                  ('Cross-Origin-Resource-Policy', 'same-origin'), ('Cross-Origin-Opener-Policy', 'same-origin')]
        for name, value in always + list(more):
            self.send_header(name, value)
        self.end_headers()
        self.wfile.write(body)

    def log_message(self, form, *words):
        """Nothing is logged."""


# ---------------------------------------------------------------------------------------------------------- the command


def port_number(text):
    if not re.fullmatch('[0-9]{1,5}', text) or int(text) > 65535:
        raise argparse.ArgumentTypeError('a port is a number up to 65535')
    return int(text)


class Arguments(argparse.ArgumentParser):
    def error(self, message):
        raise Trouble(1, f'{message}: map.py --help tells the arguments')


def arguments(words):
    parser = Arguments(prog='map.py', add_help=False)
    parser.add_argument('store', metavar='NAME')
    parser.add_argument('--port', type=port_number, default=0)
    parser.add_argument('--opl')
    parser.add_argument('--program')
    return parser.parse_args(words)


def opened(store, program):
    """A session. The signal of Ctrl-C is held back in the program that it starts, and here until it has begun."""
    signal.pthread_sigmask(signal.SIG_BLOCK, {signal.SIGINT})
    try:
        return client.Session(store, program)
    finally:
        signal.pthread_sigmask(signal.SIG_UNBLOCK, {signal.SIGINT})


def serve(options, session, tags):
    """Serves until a signal comes."""
    answers = Answers(session, tags)
    try:
        server = Server(options.port, options.store, answers)
    except OSError as error:
        raise Trouble(1, f'port {options.port}: {error.strerror}') from None
    with server:
        say(f'http://127.0.0.1:{server.server_address[1]}/')
        try:
            server.serve_forever()
        except KeyboardInterrupt:
            answers.turn.acquire()      # what is being answered ends first, and nothing begins


def interrupt(number, frame):
    raise KeyboardInterrupt


def main(words):
    if '--help' in words or '-h' in words:
        say(__doc__.strip())
        return 0
    options = arguments(words)
    signal.signal(signal.SIGTERM, interrupt)
    tags = Tags()
    if options.opl is not None:
        tags.read(options.opl)
    try:
        with opened(options.store, options.program) as session:
            serve(options, session, tags)
    except client.SessionError as error:
        raise Trouble(client.exit_status(error), error) from None
    return 0


if __name__ == '__main__':
    client.end_command('map.py', main)
