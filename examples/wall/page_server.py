"""Serves pages to browsers of this machine: addresses of loopback, a plan's areas, answers with
their fields, and the server. The wall stands on it, and so does the desks' companion."""
import argparse
import http.server
import ipaddress
import socket
import sys

KINDS = {'.html': 'text/html', '.css': 'text/css', '.js': 'text/javascript'}

HEADERS = {
    'Content-Security-Policy': "default-src 'none'; script-src 'self'; style-src 'self'; "
                               "connect-src 'self'; base-uri 'none'; form-action 'none'; "
                               "frame-ancestors 'none'",
    'Cross-Origin-Opener-Policy': 'same-origin',
    'Cross-Origin-Resource-Policy': 'same-origin',
    'Referrer-Policy': 'no-referrer',
    'X-Content-Type-Options': 'nosniff',
    'Cache-Control': 'no-store',
}


class Refused(Exception):
    """Why no pages are served."""


def loopback(text):
    """An address of this machine only, written 127.0.0.1:8081 or [::1]:8081."""
    host, colon, port = text.rpartition(':')
    try:
        if colon and ipaddress.ip_address(host.strip('[]')).is_loopback and 0 <= int(port) < 65536:
            return host.strip('[]'), int(port)
    except ValueError:
        pass
    raise argparse.ArgumentTypeError(f'{text!r} is no address of loopback with a port')


def area_of(row):
    """A row of a plan as a rectangle in metres of the National Grid, and whose it is."""
    sides = {'west': 'a', 'south': 'b', 'east': 'c', 'north': 'd'}
    return {'division': int(row['number'])} | {it: int(row[at]) for it, at in sides.items()}


class Page(http.server.BaseHTTPRequestHandler):
    """Answers a browser, with the fields that every answer has."""
    timeout = 10
    server_version, sys_version = 'pages', ''

    def is_named_so(self):
        """Whether the request names this server as its host."""
        return self.headers.get('Host') in self.server.hosts

    def answer(self, status, kind, content, **more):
        self.send_response_only(status)
        given = {'Date': self.date_time_string(), 'Content-Type': f'{kind}; charset=utf-8',
                 'Content-Length': str(len(content))} | HEADERS
        for name, value in (given | {it: more[it] for it in more if more[it]}).items():
            self.send_header(name, value)
        self.end_headers()
        if self.command != 'HEAD':
            self.wfile.write(content)

    def log_message(self, *_):
        """Says nothing: a path may have what was typed."""


class PageServer(http.server.ThreadingHTTPServer):
    """Serves pages at an address of loopback."""
    daemon_threads = True

    def __init__(self, address, page):
        self.address_family = socket.AF_INET6 if ':' in address[0] else socket.AF_INET
        super().__init__(address, page)
        host, port = self.server_address[:2]
        self.name = f'[{host}]:{port}' if ':' in host else f'{host}:{port}'
        self.hosts = {self.name, f'localhost:{port}'}

    def serve(self, what):
        """Says where it serves, and does so until it is interrupted."""
        print(f'{what}: http://{self.name}/', flush=True)
        try:
            self.serve_forever()
        except KeyboardInterrupt:
            pass

    def handle_error(self, request, client_address):
        """Says nothing of a page that went away."""
        if not isinstance(sys.exc_info()[1], OSError):
            super().handle_error(request, client_address)
