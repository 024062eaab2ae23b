#!/usr/bin/env python3
"""Times `release serve` beside nginx on loopback: requests a second for a target of 1 KiB and one of 1 MiB.

usage: serve_rates.py [--requests N] [--large N] [--runs N]

It makes a repository that lists the two files, signed with test seeds, puts it into a database of its own, and asks the server
and nginx in turn for the same bytes, one connection at a time, each closed after its reply; of three runs the best of each counts. `ab` (Debian's apache2-utils) and
nginx (nginx-light) have to be there, and the program as `rt run` leaves it: crates/release/out/release.
The bar is 0.6 of nginx for 1 KiB and 0.7 of it for 1 MiB; the exit status is 1 below it.
"""
import argparse
import hashlib
import json
import re
import shutil
import socket
import subprocess
import sys
import tempfile
import time
from pathlib import Path

HERE = Path(__file__).resolve().parent.parent
sys.path.insert(0, str(HERE.parent / "gate"))
import straight  # noqa: E402

RELEASE = HERE / "release/out/release"
EXPIRES = "2031-01-01T00:00:00Z"


def spelled(value):
    return json.dumps(value, sort_keys=True, separators=(",", ":"), ensure_ascii=False).encode()


def sign(seed, leaf, message):
    """The public key of a test seed and its signature: W4, height 5."""
    public, signature = straight.signed(4, 5, bytes([seed]) * 16, bytes([seed]) * 32, leaf, message).split()
    return public, signature


def key_of(seed):
    public, _ = sign(seed, 31, b"")
    key = {"keytype": "lms", "keyval": {"public": public}, "scheme": "lms-sha256"}
    return hashlib.sha256(spelled(key)).hexdigest(), key


def signed(seed, body, leaf=0):
    keyid, _ = key_of(seed)
    _, signature = sign(seed, leaf, spelled(body))
    return spelled({"signatures": [{"keyid": keyid, "sig": signature}], "signed": body})


def document(kind, **members):
    return {"_type": kind, "spec_version": "1.0.0", "version": 1, "expires": EXPIRES, **members}


def repository(folder, files):
    roles = {"root": 1, "timestamp": 2, "snapshot": 3, "targets": 4}
    keys = {role: key_of(seed) for role, seed in roles.items()}
    rules = {role: {"keyids": [keys[role][0]], "threshold": 1} for role in roles}
    root = document("root", consistent_snapshot=True, keys=dict(keys.values()), roles=rules)
    listings = {
        name: {"length": len(data), "hashes": {"sha256": hashlib.sha256(data).hexdigest()}}
        for name, data in files.items()
    }
    documents = {
        "root": root,
        "timestamp": document("timestamp", meta={"snapshot.json": {"version": 1}}),
        "snapshot": document("snapshot", meta={"targets.json": {"version": 1}}),
        "targets": document("targets", targets=listings),
    }
    for role, body in documents.items():
        (folder / f"{role}.json").write_bytes(signed(roles[role], body))


def release(*words):
    subprocess.run([RELEASE, *words], check=True, stdout=subprocess.DEVNULL)


def free_port():
    with socket.socket() as s:
        s.bind(("127.0.0.1", 0))
        return s.getsockname()[1]


def wait_for(port):
    for _ in range(200):
        with socket.socket() as s:
            if s.connect_ex(("127.0.0.1", port)) == 0:
                return
        time.sleep(0.05)
    raise SystemExit(f"nobody listens on {port}")


def rate(port, path, requests):
    url = f"http://127.0.0.1:{port}{path}"
    run = subprocess.run(["ab", "-q", "-n", str(requests), "-c", "1", url], capture_output=True, text=True, check=True)
    failed = re.search(r"Failed requests:\s+(\d+)", run.stdout)
    other = re.search(r"Non-2xx responses:\s+(\d+)", run.stdout)
    if int(failed[1]) or other:
        raise SystemExit(run.stdout)
    return float(re.search(r"Requests per second:\s+([\d.]+)", run.stdout)[1])


def serve_release(folder, files):
    db = str(folder / "db")
    release("init", "--db", db, str(folder / "root.json"))
    release("publish", "--db", db, *(f"{role}:{folder / role}.json" for role in ("timestamp", "snapshot", "targets")))
    for name in files:
        release("put", "--db", db, str(folder / name))
    port = free_port()
    server = subprocess.Popen([RELEASE, "serve", "--db", db, "--port", str(port)], stdout=subprocess.PIPE)
    server.stdout.readline()
    return port, server


def serve_nginx(folder):
    port = free_port()
    (folder / "nginx.conf").write_text(f"""
daemon off; worker_processes 1; pid {folder}/nginx.pid; error_log {folder}/error.log; user root;
events {{ worker_connections 1024; }}
http {{ access_log off; keepalive_timeout 0; sendfile on; default_type application/octet-stream;
  client_body_temp_path {folder}/body; proxy_temp_path {folder}/proxy; fastcgi_temp_path {folder}/fastcgi;
  uwsgi_temp_path {folder}/uwsgi; scgi_temp_path {folder}/scgi;
  server {{ listen 127.0.0.1:{port}; location /targets/ {{ alias {folder}/; }} }} }}
""")
    server = subprocess.Popen([shutil.which("nginx") or "/usr/sbin/nginx", "-c", str(folder / "nginx.conf")], stderr=subprocess.DEVNULL)
    wait_for(port)
    return port, server


def main():
    parser = argparse.ArgumentParser()
    parser.add_argument("--requests", type=int, default=2000)
    parser.add_argument("--large", type=int, default=500)
    parser.add_argument("--runs", type=int, default=3)
    args = parser.parse_args()
    files = {"small.bin": bytes(range(256)) * 4, "large.bin": bytes(range(256)) * 4096}
    below = False
    with tempfile.TemporaryDirectory() as name:
        folder = Path(name)
        for file, data in files.items():
            (folder / file).write_bytes(data)
        repository(folder, files)
        port, server = serve_release(folder, files)
        nginx_port, nginx = serve_nginx(folder)
        try:
            for file, requests, bar in (("small.bin", args.requests, 0.6), ("large.bin", args.large, 0.7)):
                runs = [[rate(it, f"/targets/{file}", requests) for it in (port, nginx_port)] for _ in range(args.runs)]
                ours, theirs = (max(it) for it in zip(*runs))
                below |= ours < bar * theirs
                print(f"{file}: release {ours:.0f} a second, nginx {theirs:.0f}, ratio {ours / theirs:.2f} (bar {bar})")
        finally:
            server.kill()
            nginx.terminate()
    sys.exit(1 if below else 0)


if __name__ == "__main__":
    main()
