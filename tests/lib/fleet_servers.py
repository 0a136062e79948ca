"""Servers for tests/by_hand/fleet and bench/fleet: PostgreSQL, or the nodes of a ClickHouse cluster, in a folder of their own."""
import base64
import glob
import os
import re
import shutil
import subprocess
import sys
import time
import urllib.request

from tried import SCRIPTS

NOBODY = 65534


def tool(name):
    found = shutil.which(name, path=os.pathsep.join([*sorted(glob.glob("/usr/lib/postgresql/*/bin"), reverse=True), os.environ["PATH"]]))
    if not found:
        sys.exit(f"there is no {name}: install PostgreSQL")
    return found


class Database:
    """A PostgreSQL server in a folder, which listens at a socket there alone. It is of the user nobody where this is root,
    since PostgreSQL refuses root."""

    def __init__(self, folder, *settings):
        self.folder, self.settings = folder, settings
        os.mkdir(folder)
        self.user = {"user": NOBODY, "group": NOBODY, "extra_groups": []} if os.geteuid() == 0 else {}
        if self.user:
            os.chown(folder, NOBODY, NOBODY)
        self.data = os.path.join(folder, "data")
        self.run(tool("initdb"), "-D", self.data, "-U", "tester", "-A", "trust", "-E", "UTF8", "--locale=C.UTF-8", "--no-sync")

    def run(self, *words):
        subprocess.run(words, cwd=self.folder, check=True, stdout=subprocess.DEVNULL, **self.user)

    def start(self):
        options = " ".join(f"-c {it}" for it in (f"listen_addresses='' -c unix_socket_directories={self.folder}", *self.settings))
        self.run(tool("pg_ctl"), "-D", self.data, "-w", "-l", os.path.join(self.folder, "log"), "start", "-o", options)

    def stop(self, mode="immediate"):
        self.run(tool("pg_ctl"), "-D", self.data, "-w", "-m", mode, "stop")

    def address(self, user="tester"):
        return f"postgresql://{user}@/postgres?host={self.folder}"

    def ask(self, text):
        ran = subprocess.run([tool("psql"), "-X", "-A", "-t", "-q", "-v", "ON_ERROR_STOP=1", "-d", self.address(), "-c", text],
                             check=True, capture_output=True)
        return ran.stdout.decode()

    def settle(self):
        self.ask("VACUUM ANALYZE")

    def processor(self):
        """The seconds of the processor of all connections that have ended."""
        with open(os.path.join(self.data, "postmaster.pid"), encoding="ascii") as file, open(f"/proc/{int(file.readline())}/stat", encoding="latin-1") as stat:
            return sum(map(int, stat.read().rpartition(")")[2].split()[11:15])) / os.sysconf("SC_CLK_TCK")

    def multiply(self, copies):
        """Copies all runs, each copy under other numbers, digests and names of stores."""
        top = int(self.ask("SELECT max(load) FROM profhouse.load"))
        changes = {"load": "l.load + {0}, sha256(digest || '\\x{1:02x}'), kind, at, month, call_count, dropped", "event": "load + {0}, event, name, self_cost, call_cost, called",
                   "cost": "line, thread, cost, load + {0}, month, object, file, function, event", "by_function": "self, called, load + {0}, month, object, function, event",
                   "call": "line, n, load + {0}, month, object, file, function, called_object, called_file, called_function, part"}
        for copy in range(1, copies):
            for table, columns in changes.items():
                more = "OVERRIDING SYSTEM VALUE " if table == "load" else ""
                self.ask(f"INSERT INTO profhouse.{table} {more}SELECT {columns.format(copy * top, copy)} FROM profhouse.{table} AS l WHERE load <= {top}")
            self.ask(f"INSERT INTO profhouse.listed SELECT store || '.{copy}', run, sha256(digest || '\\x{copy:02x}'), label FROM profhouse.listed WHERE store NOT LIKE '%.%'")
            self.ask(f"INSERT INTO profhouse.store SELECT store || '.{copy}', version, groups FROM profhouse.store WHERE store NOT LIKE '%.%'")

    def bytes_of(self, table):
        """How many bytes a table has, with its indexes."""
        return int(self.ask(f"SELECT sum(pg_total_relation_size(inhrelid)) FROM pg_inherits WHERE inhparent = 'profhouse.{table}'::regclass"))


class Cluster:
    """A cluster of ClickHouse in a folder, made and started by fleet_nodes: SHARDSxREPLICAS."""

    def __init__(self, folder, size="2x2", port=22120, *more):
        self.folder, self.port = folder, port
        self.shards, self.replicas = map(int, size.split("x"))
        os.mkdir(folder)
        self.nodes("make", folder, "--shards", str(self.shards), "--replicas", str(self.replicas), "--port", str(port), *more)
        self.names = [f"n{it + 1}" for it in range(self.shards * self.replicas)]

    def nodes(self, *words):
        subprocess.run([sys.executable, os.path.join(SCRIPTS, "fleet_nodes"), *words], check=True)

    def address(self, user="loader"):
        with open(os.path.join(self.folder, f"{user}.url"), encoding="ascii") as file:
            return file.read().strip()

    def start(self, *names):
        """Starts nodes, and waits until they answer."""
        self.nodes("start", self.folder, *names)
        for it in names or self.names:
            until = time.monotonic() + 240
            while it != "zk" and not self.answers(it):
                if time.monotonic() > until:
                    raise AssertionError(f"node {it} does not answer")
                time.sleep(0.2)

    def stop(self, *names):
        self.nodes("stop", self.folder, *names)

    def kill(self, name):
        """Ends a node at once, as if its machine had gone."""
        with open(os.path.join(self.folder, name, "pid"), encoding="ascii") as file:
            os.kill(int(file.read().split()[0]), 9)

    def answers(self, name):
        try:
            return self.ask(name, "SELECT 1") == b"1\n"
        except OSError:
            return False

    def ask(self, name, query):
        """What a node says to a query by the loader."""
        scheme, pair = re.match(r"(https?)://([^@]*)@", self.address()).groups()
        asked = urllib.request.Request(f"{scheme}://127.0.0.1:{self.port + int(name[1:])}/", query.encode(),
                                       {"Authorization": "Basic " + base64.b64encode(pair.encode()).decode()})
        with urllib.request.urlopen(asked, timeout=600) as answer:
            return answer.read()

    def settle(self):
        time.sleep(20)

    def processor(self):
        """The seconds of the processor of all nodes."""
        return sum(self.of_process(it) for it in self.names)

    def of_process(self, name):
        with open(os.path.join(self.folder, name, "pid"), encoding="ascii") as file, open(f"/proc/{file.read().split()[0]}/stat", encoding="latin-1") as stat:
            return sum(map(int, stat.read().rpartition(")")[2].split()[11:13])) / os.sysconf("SC_CLK_TCK")

    def multiply(self, copies):
        """Copies all runs of a cluster of one node, each copy under other numbers, digests and names of stores."""
        digest = "toFixedString(concat(substring(digest, 1, 30), reinterpretAsString(toUInt16(43776 + {0}))), 32)"
        changes = {"load": digest + ", load + {0}, kind, at, month, call_count", "event": "load + {0}, event, self_cost, call_cost, called",
                   "listed": "concat(store, '.{0}'), version, run, " + digest + ", label", "store": "concat(store, '.{0}'), version, count, sum, groups",
                   "cost": "month, load + {0}, event, object, file, function, line, thread, cost",
                   "by_function": "month, load + {0}, event, object, function, self, called",
                   "call": "month, load + {0}, event, object, file, function, line, called_object, called_file, called_function, n"}
        if copies > 1:
            self.ask("n1", "CREATE TABLE profhouse.first (load UInt64) ENGINE = MergeTree ORDER BY load")
            self.ask("n1", "INSERT INTO profhouse.first SELECT load FROM profhouse.load")
        for copy in range(1, copies):
            for table, columns in changes.items():
                own = "store NOT LIKE '%.%'" if table in ("listed", "store") else "load IN (SELECT load FROM profhouse.first)"
                self.ask("n1", f"INSERT INTO profhouse.{table} SELECT {columns.format(copy)} FROM profhouse.{table} WHERE {own}")
            print(f"copy {copy}", flush=True)

    def bytes_of(self, table):
        """How many bytes a table has on one replica of each shard."""
        query = f"SELECT sum(bytes_on_disk) FROM system.parts WHERE database = 'profhouse' AND table = '{table}' AND active"
        return sum(int(self.ask(it, query)) for it in self.names[::self.replicas])
