"""What is measured, by the tools themselves: back ends that answer after a known time, and proxies before them that log
it."""

import asyncio
import contextlib
import subprocess
import sys
from collections.abc import Iterator, Mapping, Sequence
from pathlib import Path
from typing import Any

from proxies import free_ports, wait

ANSWER = b"HTTP/1.1 200 OK\r\nContent-Length: 3\r\nConnection: close\r\n\r\nok\n"
# A program that answers at ports after the milliseconds that a request's header X-Delay has, one request a connection.
BACK_ENDS = f"""
import asyncio, re, sys

async def answer(reader, writer):
    head = await reader.readuntil(b"\\r\\n\\r\\n")
    delay = re.search(rb"(?i)x-delay: ([0-9.]+)", head)
    await asyncio.sleep(float(delay[1]) / 1000 if delay else 0)
    writer.write({ANSWER!r})
    await writer.drain()
    writer.close()

async def main():
    servers = [await asyncio.start_server(answer, "127.0.0.1", int(port), backlog=500) for port in sys.argv[1:]]
    print("listening", flush=True)
    await asyncio.gather(*(own.serve_forever() for own in servers))

asyncio.run(main())
"""


@contextlib.contextmanager
def running(words: Sequence[str], **more: Any) -> Iterator["subprocess.Popen[bytes]"]:
    """A process that is ended afterwards."""
    process = subprocess.Popen(words, **more)
    try:
        yield process
    finally:
        process.terminate()
        process.wait(20)


@contextlib.contextmanager
def backends(ports: Sequence[int]) -> Iterator[None]:
    with running([sys.executable, "-c", BACK_ENDS, *map(str, ports)], stdout=subprocess.PIPE) as process:
        assert process.stdout and process.stdout.readline()
        yield


async def _ask(port: int, path: str, client: str, delay: float, few: asyncio.Semaphore) -> None:
    async with few:
        reader, writer = await asyncio.open_connection("127.0.0.1", port, local_addr=(client, 0))
        writer.write(f"GET {path} HTTP/1.1\r\nHost: a\r\nX-Delay: {delay}\r\nConnection: close\r\n\r\n".encode())
        await reader.read()
        writer.close()


def ask_all(port: int, asked: Sequence[tuple[str, str, float]], at_once: int = 90) -> None:
    """Asks for each path from an address of the loopback with a delay, many side by side."""

    async def all_of_them() -> None:
        few = asyncio.Semaphore(at_once)
        await asyncio.gather(*(_ask(port, *own, few) for own in asked))

    asyncio.run(all_of_them())


def haproxy_config(port: int, ports: Mapping[str, int]) -> str:
    """A HAProxy that asks the server of the first part of the path, with its own log."""
    common = "option httplog\n  mode http\n  timeout connect 5s\n  timeout client 60s\n  timeout server 60s"
    rules = "\n".join(f"  use_backend b-{name} if {{ path_beg /{name}/ }}" for name in ports)
    ends = "\n".join(f"backend b-{name}\n  server {name} 127.0.0.1:{own}" for name, own in ports.items())
    head = f"global\n  log stdout format raw local0\n  maxconn 2000\ndefaults\n  log global\n  {common}"
    return f"{head}\nfrontend f\n  bind 127.0.0.1:{port}\n{rules}\n{ends}\n"


@contextlib.contextmanager
def haproxy(folder: Path, names: Sequence[str]) -> Iterator[tuple[int, Path]]:
    """A HAProxy before a back end of each name; its port and its log."""
    port, *ports = free_ports(len(names) + 1)
    config, log = folder / "haproxy.cfg", folder / "haproxy.log"
    config.write_text(haproxy_config(port, dict(zip(names, ports))))
    with backends(ports), open(log, "ab") as file:
        with running(["haproxy", "-f", str(config)], stdout=file, stderr=subprocess.DEVNULL) as process:
            wait(process, port, log)
            yield port, log


APACHE = """ServerName localhost
Listen 127.0.0.1:{port}
PidFile {folder}/apache.pid
LoadModule mpm_event_module /usr/lib/apache2/modules/mod_mpm_event.so
LoadModule authz_core_module /usr/lib/apache2/modules/mod_authz_core.so
LoadModule proxy_module /usr/lib/apache2/modules/mod_proxy.so
LoadModule proxy_http_module /usr/lib/apache2/modules/mod_proxy_http.so
ProxyPass / http://127.0.0.1:{behind}/
ErrorLog {folder}/apache.err
LogFormat "%h %l %u %t \\"%r\\" %>s %b \\"%{{Referer}}i\\" \\"%{{User-Agent}}i\\" %D" timed
CustomLog {folder}/access.log timed
"""
NGINX = """daemon off; pid {folder}/nginx.pid; error_log {folder}/nginx.err; events {{}}
http {{
  log_format timed '$remote_addr - $remote_user [$time_local] "$request" $status $body_bytes_sent "$http_referer" '
    '"$http_user_agent" $request_time $upstream_addr';
  log_format objects escape=json '{{"time":"$time_iso8601","remote_addr":"$remote_addr","request_time":$request_time,'
    '"upstream_addr":"$upstream_addr"}}';
  access_log {folder}/access.log timed; access_log {folder}/access.json objects;
  client_body_temp_path {folder}/1; proxy_temp_path {folder}/2; fastcgi_temp_path {folder}/3;
  uwsgi_temp_path {folder}/4; scgi_temp_path {folder}/5;
  server {{ listen 127.0.0.1:{port}; location / {{ proxy_pass http://127.0.0.1:{behind}; }}
    location /direct/ {{ return 302 /; }} location /nowhere {{ return 404; }} }}
}}
"""
SERVERS = {"apache": (APACHE, ["apache2", "-D", "FOREGROUND", "-f"]), "nginx": (NGINX, ["nginx", "-c"])}


@contextlib.contextmanager
def server(name: str, folder: Path) -> Iterator[tuple[int, int]]:
    """An Apache or a nginx before a back end, with logs in the folder; its port, and that of the back end."""
    port, behind = free_ports(2)
    text, words = SERVERS[name]
    config = folder / f"{name}.conf"
    config.write_text(text.format(folder=folder, port=port, behind=behind))
    folder.chmod(0o755)
    with backends([behind]), running([*words, str(config)], stderr=subprocess.DEVNULL) as process:
        wait(process, port, config)
        yield port, behind
