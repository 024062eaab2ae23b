#!/usr/bin/env python3
"""Loads `release serve` with many connections, straight and behind the documented proxy, in one run.

usage: load_rates.py [--connections N] [--seconds N]

It makes a repository with a target of 1 KiB, serves it, and puts nginx in front of it by deploy/nginx.conf, with its ports and paths changed
and without its limits for one address, since all load comes from one. `wrk` then keeps 64 connections busy for a minute each:

- straight onto the server, which takes one connection at a time;
- by the proxy for a name that may change, so that the server is asked each time;
- by the proxy for a consistent name, which comes out of its cache;
- onto nginx alone, which reads the file: the peer.

For each it prints requests a second, the median and the 99th percentile of the latency, and how many requests were lost: answered by another
status than 2xx, or by an error of their connection. wrk and nginx (Debian's packages) have to be there, and crates/release/out/release.
The exit status is 1 where a request was lost by the proxy or by nginx.
"""
import argparse
import hashlib
import re
import shutil
import subprocess
import tempfile
from pathlib import Path

from serve_rates import HERE, free_port, repository, serve_nginx, serve_release, wait_for

CONFIGURATION = HERE.parent / "deploy/nginx.conf"


def proxy(folder, inner):
    """nginx in front of the server at the port `inner`, by the documented configuration."""
    port = free_port()
    text = CONFIGURATION.read_text()
    for old, new in (
        ("127.0.0.1:8080", f"127.0.0.1:{inner}"),
        ("listen 80;", f"listen 127.0.0.1:{port};"),
        ("/run/release-nginx.pid", f"{folder}/proxy.pid"),
        ("/var/log/nginx/release.error.log", f"{folder}/proxy.error.log"),
        ("/var/log/nginx/release.access.log release", "off"),
        ("/var/cache/release-nginx", f"{folder}/cache"),
        ("    limit_req zone=peers burst=200;\n", ""),
        ("    limit_conn open 16;\n", ""),
    ):
        if text.count(old) != 1:
            raise SystemExit(f"deploy/nginx.conf has not one '{old}'")
        text = text.replace(old, new)
    file = folder / "proxy.conf"
    file.write_text("daemon off; user root;\n" + text)
    server = subprocess.Popen([shutil.which("nginx") or "/usr/sbin/nginx", "-c", str(file)], stderr=subprocess.DEVNULL)
    wait_for(port)
    return port, server


def load(port, path, connections, seconds):
    words = ["wrk", "-t", "2", "-c", str(connections), "-d", f"{seconds}s", "--latency", f"http://127.0.0.1:{port}{path}"]
    said = subprocess.run(words, check=True, capture_output=True, text=True).stdout
    rate = float(re.search(r"Requests/sec:\s+([\d.]+)", said)[1])
    median, last = (re.search(rf"\s{part}%\s+([\d.]+\w+)", said)[1] for part in (50, 99))
    other = re.search(r"Non-2xx or 3xx responses: (\d+)", said)
    errors = re.search(r"Socket errors: connect (\d+), read (\d+), write (\d+), timeout (\d+)", said)
    lost = (int(other[1]) if other else 0) + sum(map(int, errors.groups()) if errors else [])
    return rate, median, last, lost


def main():
    parser = argparse.ArgumentParser()
    parser.add_argument("--connections", type=int, default=64)
    parser.add_argument("--seconds", type=int, default=60)
    args = parser.parse_args()
    small = bytes(range(256)) * 4
    files = {"small.bin": small}
    digest = hashlib.sha256(small).hexdigest()
    is_lost = False
    with tempfile.TemporaryDirectory() as name:
        folder = Path(name)
        for file, data in files.items():
            (folder / file).write_bytes(data)
        repository(folder, files)
        inner, server = serve_release(folder, files)
        outer, front = proxy(folder, inner)
        alone, nginx = serve_nginx(folder)
        try:
            print("| What is asked | requests a second | median | 99th percentile | lost |\n|---|---|---|---|---|")
            for told, port, path in (
                ("the server, straight", inner, "/targets/small.bin"),
                ("the proxy, a name that may change", outer, "/targets/small.bin"),
                ("the proxy, a consistent name", outer, f"/targets/{digest}.small.bin"),
                ("nginx alone", alone, "/targets/small.bin"),
            ):
                rate, median, last, lost = load(port, path, args.connections, args.seconds)
                print(f"| {told} | {rate:.0f} | {median} | {last} | {lost} |", flush=True)
                is_lost |= lost > 0 and port != inner
        finally:
            for one in (server, front, nginx):
                one.terminate()
                one.wait()
    raise SystemExit(is_lost)


main()
