"""nginx over a site's file, below a folder of its own."""
import contextlib
import os
import subprocess


def replaced(text, pairs):
    """A text with other ports and folders. What is not in it is an error."""
    for one, other in pairs:
        assert one in text, f'no {one} in the text'
        text = text.replace(one, str(other))
    return text


def command(folder, site):
    """The words that start nginx with this site only."""
    temporary = '\n'.join(f'{it}_temp_path {folder}/{it};' for it in (
        'client_body', 'proxy', 'fastcgi', 'uwsgi', 'scgi'))
    whole = folder / 'nginx.conf'
    whole.write_text(f"""
        daemon off; pid {folder}/pid; error_log {folder}/errors;
        worker_processes 1; {'user root;' if os.geteuid() == 0 else ''}
        events {{ }}
        http {{ include /etc/nginx/mime.types; access_log off; {temporary}
                include {site}; }}""")
    return ['nginx', '-p', str(folder), '-e', str(folder / 'errors'), '-c', str(whole)]


@contextlib.contextmanager
def running(words):
    process = subprocess.Popen(words, stdin=subprocess.DEVNULL, stdout=subprocess.DEVNULL,
                               stderr=subprocess.DEVNULL)
    try:
        yield
    finally:
        process.terminate()
        process.wait(60)
