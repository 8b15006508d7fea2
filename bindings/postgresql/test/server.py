"""Runs statements on the server that the tests started, which PGHOST, PGPORT and PGUSER name, as for psql. As a program, it waits until the
server is ready."""
import os
import subprocess
import sys
import time

READY = "SELECT count(*) = 0 FROM pg_stat_activity WHERE backend_type = 'client backend' AND pid <> pg_backend_pid()"

ENCODINGS = {}  # for databases whose texts cannot be converted to UTF-8: psql uses the database's encoding


def run(script, database="postgres", stop=True):
    """Runs a script by psql. Returns the lines of its output, and its errors. If `stop` is true, an error ends the test."""
    command = ["psql", "-X", "-q", "-At", "-v", f"ON_ERROR_STOP={int(stop)}", "-d", database]
    environment = {**os.environ, "PGCLIENTENCODING": ENCODINGS.get(database, "UTF8")}
    done = subprocess.run(command, input=script.encode(), capture_output=True, env=environment, check=False)
    said, complaint = done.stdout.decode("utf-8", "replace").splitlines(), done.stderr.decode("utf-8", "replace")
    if stop and done.returncode:
        raise AssertionError(f"{script:.500}\n{complaint:.2000}")
    return said, complaint


def lines(script, database="postgres"):
    return run(script, database)[0]


def fresh(database, encoding="UTF8"):
    """Makes a new database with the extension."""
    lines(f"DROP DATABASE IF EXISTS {database}")
    lines(f"CREATE DATABASE {database} TEMPLATE template0 ENCODING {encoding} LOCALE 'C'")
    ENCODINGS[database] = encoding if encoding == "MULE_INTERNAL" else "UTF8"
    lines("CREATE EXTENSION langtag", database)


def quoted(text):
    return "'" + text.replace("'", "''") + "'"


def wait(seconds=60):
    """Waits until the server accepts connections, which it refuses while it recovers from a crash, and all earlier sessions have ended."""
    end = time.monotonic() + seconds
    while True:
        asked = subprocess.run(["psql", "-X", "-At", "-c", READY, "postgres"], capture_output=True, text=True, check=False)
        if asked.stdout == "t\n":
            return
        if time.monotonic() > end:
            sys.exit(f"the server is not ready after {seconds} s: {asked.stderr or 'an earlier session has not ended'}")
        time.sleep(0.1)


if __name__ == "__main__":
    wait()
