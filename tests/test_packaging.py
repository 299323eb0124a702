"""What is installed beside the program: the unit with its user and folder, files for monitors and for Kubernetes."""

import functools
import json
import os
import pathlib
import re
import shutil
import subprocess
import sys

from http_place import SeenServer
from program import Skipped
from serving import AtSocket, Server, fresh
from test_recipes import LISTINGS, killed, started
from waiting import PATIENCE

TOP = pathlib.Path(__file__).resolve().parent.parent
PACKAGING = TOP / "packaging"
sys.path.insert(0, str(PACKAGING))

import version  # noqa: E402

DOC = "share/doc/snapd-board"


def wanted(program):
    """The path of a program that the test runs beside snapd."""
    path = shutil.which(program)
    if path is None:
        raise Skipped(f"{program} isn't installed")
    return path


def ran(*words, **how):
    """What a command printed that ended well."""
    run = subprocess.run(list(map(str, words)), capture_output=True, text=True, timeout=10 * PATIENCE, **how)
    assert run.returncode == 0, run
    return run.stdout


# ---- the unit ----

NAME, SOCKET = "snapd-board@.service", PACKAGING / "systemd" / "socket.conf"
UNIT = (PACKAGING / "systemd" / NAME).read_text()
FOLDER = "/var/lib/snapd-board/%i"
COUNT = 4


def of_section(section, text=UNIT):
    """What a section of a unit says: of each name its values, in their order."""
    lines = re.search(rf"^\[{section}\]\n(.*?)(?=^\[|\Z)", text, re.S | re.M)[1].splitlines()
    values = {}
    for name, _, value in (line.partition("=") for line in lines if line and not line.startswith("#")):
        values.setdefault(name, []).append(value)
    return values


def environment(*texts):
    """The variables that a unit and its further files set: the last of each counts."""
    lines = [it for text in texts for it in of_section("Service", text).get("Environment", [])]
    return dict(it.strip('"').split("=", 1) for it in lines)


SERVICE = of_section("Service")
(COMMAND,) = SERVICE["ExecStart"]
PROGRAM = COMMAND.split()[0]
TOLD_C = {"GLIBC_TUNABLES": "glibc.malloc.hugetlb=1", "MALLOC_ARENA_MAX": "1"}


def served_by(*texts):
    """The address and the further words of `serve`, with a folder of this place for the unit's."""
    said = environment(UNIT, *texts)
    command = COMMAND.replace("${ADDRESS}", said["ADDRESS"]).replace("$OPTIONS", said["OPTIONS"])
    program, serve, address, *words = command.split()
    assert (pathlib.Path(program).name, serve) == ("snapd", "serve") and FOLDER in words
    return address, ["board" if word == FOLDER else word for word in words]


def test_unit_of_the_system(snapd, _):
    address, words = served_by()
    assert address == "127.0.0.1:7070" and words == ["--dir", "board"]
    assert SERVICE["WorkingDirectory"] == [FOLDER] and SERVICE["StateDirectory"] == ["snapd-board/%i"]
    assert {name: environment(UNIT)[name] for name in TOLD_C} == TOLD_C
    # It keeps trying if the fault may pass by itself: here the files don't exist yet.
    assert of_section("Unit")["StartLimitIntervalSec"] == ["0"] and SERVICE["Restart"] == ["always"]
    assert [int(it) for it in SERVICE["RestartPreventExitStatus"][0].split()] == [2, 3]
    serve = lambda *words: snapd("serve", "127.0.0.1:0", *words, env=TOLD_C)  # noqa: E731
    assert serve(*words).status == 1
    snapd("init", "board", "--count", COUNT)
    snapd.formatted("foreign.seg", "--index", 0, "--count", 2)
    assert serve("--scanners").status == 2 and serve("foreign.seg").status == 3
    # One connection, so that it ends.
    with Server(snapd, *words, connections=1, env=TOLD_C) as server:
        wanted_lines = "".join(f"segment {index} number 0 value -\n" for index in range(COUNT))
        snapd("call", server.address, "scan").gave(0, wanted_lines)
        assert server.end().status == 0


def test_a_board_has_its_own_address_and_options(snapd, _):
    address, words = served_by(LISTINGS["override.conf"])
    assert address == "127.0.0.1:7071" and words == ["--dir", "board", "--scanners", "8", "--http", "127.0.0.1:7081"]
    snapd("init", "board", "--count", COUNT)
    with Server(snapd, *words[:-1], "127.0.0.1:0") as server:
        snapd("call", server.address, "health").gave(0, "healthy\n")


# What the unit doesn't let the server do. The tool below rates more of them than these.
LIMITS = {
    "User": ["snapd-board"], "NoNewPrivileges": ["yes"], "CapabilityBoundingSet": [""], "ProtectSystem": ["strict"],
    "ProtectHome": ["yes"], "PrivateTmp": ["yes"], "PrivateDevices": ["yes"], "MemoryDenyWriteExecute": ["yes"],
    "RestrictNamespaces": ["yes"],
    "RestrictAddressFamilies": ["AF_INET AF_INET6"], "SystemCallArchitectures": ["native"],
    "SystemCallFilter": ["@system-service", "~@privileged @resources"], "UMask": ["0077"],
}
# Of 10, which is a service without a limit.
EXPOSURE = 1.3


def test_unit_is_as_narrow_as_it_says(_, __):
    assert {name: SERVICE.get(name) for name in LIMITS} == LIMITS


def analyzed(snapd, text, *words):
    """What `systemd-analyze` says of a unit, in which it finds the program."""
    path = snapd.folder / "snapd-board@sim.service"
    path.write_text(text.replace(PROGRAM, snapd.path))
    words = [wanted("systemd-analyze"), *words, path.resolve()]
    run = subprocess.run(words, capture_output=True, text=True, timeout=PATIENCE)
    assert ".service:" not in run.stderr, run.stderr
    return run.returncode, run.stdout


def test_systemd_takes_the_unit(snapd, _):
    """Alone, and with the file beside it. The user needn't be there."""
    alone = UNIT.replace("User=snapd-board\n", "")
    assert analyzed(snapd, alone, "verify", "--man=no") == (0, "")
    (snapd.folder / f"{NAME}.d").mkdir()
    shutil.copy(SOCKET, snapd.folder / f"{NAME}.d")
    assert analyzed(snapd, alone, "verify", "--man=no") == (0, "")


def test_systemd_rates_the_unit_as_safe(snapd, _):
    # Releases before 250 rate no unit that isn't loaded.
    if "--offline" not in ran(wanted("systemd-analyze"), "--help"):
        raise Skipped("systemd-analyze is older than 250")
    status, output = analyzed(snapd, UNIT, "security", "--offline=true", f"--threshold={10 * EXPOSURE:.0f}")
    rated = re.search(r"Overall exposure level for snapd-board@sim\.service: (\d+\.\d+) ", output)
    assert status == 0 and rated and float(rated[1]) <= EXPOSURE, (status, output[-400:])


def test_unit_at_a_socket(snapd, _):
    """What it serves then, at a path of this folder."""
    text = SOCKET.read_text()
    address, words = served_by(text)
    assert address == "unix:/run/snapd-board/%i/sock" and words == ["--dir", "board", "--socket-mode", "0660"]
    assert f"/etc/systemd/system/{NAME}.d/socket.conf" in text
    # A list begins anew with an empty one; and the unit makes nothing that others may read but what is said.
    assert "RestrictAddressFamilies=\nRestrictAddressFamilies=AF_UNIX\n" in text
    assert "RuntimeDirectory=snapd-board/%i\nRuntimeDirectoryMode=0711\n" in text and SERVICE["UMask"] == ["0077"]
    snapd("init", "board", "--count", COUNT)
    before = ("sh", "-c", 'umask 0077 && exec "$@"', "sh")
    with AtSocket(snapd, address="unix:snapd.sock", more=words, before=before) as server:
        assert os.stat(server.path).st_mode & 0o7777 == 0o660
        snapd("call", server.address, "health").gave(0, "healthy\n")


@functools.cache
def calls_in(name):
    """The system calls that a word of a filter means."""
    if not name.startswith("@"):
        return {name}
    words = [line.strip() for line in ran("systemd-analyze", "syscall-filter", name).splitlines()[1:]]
    return calls_of_all(word for word in words if word and not word.startswith("#"))


def calls_of_all(names):
    return set().union(*map(calls_in, names))


def test_unit_leaves_the_server_what_it_needs(snapd, _):
    """The calls of a start, of scans, updates and connections are among those that the unit leaves it."""
    strace, _, (allowed, taken) = wanted("strace"), wanted("systemd-analyze"), SERVICE["SystemCallFilter"]
    assert taken.startswith("~")
    left = calls_of_all(allowed.split()) - calls_of_all(taken[1:].split())
    assert {"openat", "pwrite64", "fdatasync", "accept4"} <= left and not {"chown", "setuid", "mount", "reboot"} & left
    snapd("init", "board", "--count", COUNT)
    log = snapd.file("calls")
    words = [strace, "-f", "-qq", "-o", log.name, snapd.path, "serve", "127.0.0.1:0",
             *served_by()[1], "--connections", "3"]
    server = started(snapd, *words, stderr=subprocess.PIPE, env=TOLD_C)
    try:
        while not (line := server.stdout.readline()).startswith("listening "):
            if not line:
                raise Skipped(f"strace can't trace here: {server.stderr.read().strip()}")
        address = line.split()[1]
        snapd("call", address, "update", 0, 1, "6869").gave(0, "stored 1\n")
        snapd("call", address, "scan").gave(0, "segment 0 number 1 value 6869\n" + "".join(
            f"segment {index} number 0 value -\n" for index in range(1, COUNT)))
        snapd("call", address, "status")
        output, errors = server.communicate(timeout=PATIENCE)
        assert (server.returncode, output) == (0, "served 3\n"), (server.returncode, output, errors)
    finally:
        killed(server)
    calls = re.findall(r"^\d+ +(\w+)\((.*)$", log.read_text(), re.M)
    assert {"pwrite64", "fdatasync", "accept4"} <= {name for name, _ in calls}
    assert {name for name, _ in calls} - left == set()
    families = {words.split(",")[0] for name, words in calls if name in ("socket", "socketpair")}
    assert families <= set(SERVICE["RestrictAddressFamilies"][0].split()), families
    for name, words in calls:
        assert name not in ("mmap", "mprotect") or not ("PROT_WRITE" in words and "PROT_EXEC" in words), (name, words)


def test_the_user_and_the_folder_are_made(snapd, _):
    """As root, in a folder that stands for the system's root."""
    if os.geteuid():
        raise Skipped("only root may make users")
    root = snapd.file("root").resolve()
    (root / "etc").mkdir(parents=True)
    for kind, *words in (("sysusers.d", "systemd-sysusers"), ("tmpfiles.d", "systemd-tmpfiles", "--create")):
        ran(wanted(words[0]), f"--root={root}", *words[1:], PACKAGING / kind / "snapd-board.conf")
    users, groups = ((root / "etc" / it).read_text() for it in ("passwd", "group"))
    assert re.search(r"^snapd-board:[^:]*:\d+:\d+:snapd, [^:]*:/:/usr/sbin/nologin$", users, re.M)
    assert re.search(r"^snapd-board:", groups, re.M)
    assert (root / "var" / "lib" / "snapd-board").stat().st_mode & 0o7777 == 0o755


# ---- the steps of who installs the package ----

def steps(text):
    """The commands that make a board and serve it, as the manual page and docs/RECIPES.md have them."""
    first, last = "systemctl enable snapd-board@sim", "systemctl start snapd-board@sim"
    return re.search(rf"^ *{first}\n(?:.*\n)*? *{last}$", text, re.M)[0].split()


def test_the_manual_page_and_the_recipe_have_the_same_steps(snapd, _):
    """`packaging/boot_test.sh` runs those of the page; the files are made here as they say."""
    page = re.sub(r"^\\&", "", (PACKAGING / "snapd.1").read_text(), flags=re.M).replace(r"\-", "-")
    recipes = (TOP / "docs" / "RECIPES.md").read_text()
    words = steps(page)
    assert words == steps(recipes)
    # What the package's own scripts do is told to who runs `make install`.
    for command in ("systemd-sysusers", "systemd-tmpfiles --create", "systemctl daemon-reload"):
        assert f"\n  {command}\n" in page and f"`{command}`" in " ".join(recipes.split()), command
    board = FOLDER.replace("%i", "sim")
    assert words.count(board) == 2 and f"-u {SERVICE['User'][0]} --" in " ".join(words)
    at = words.index("snapd")
    assert words[at : at + 3] == ["snapd", "init", board]
    said = "".join(f"formatted {it} of 4\n" for it in range(4))
    snapd("init", "sim", *words[at + 3 : words.index("systemctl", at)]).gave(0, said)


# ---- monitors and Kubernetes ----

PROMETHEUS, DASHBOARD = PACKAGING / "prometheus", PACKAGING / "grafana" / "snapd-board.json"
RULES, MANIFEST = PROMETHEUS / "snapd-board.rules.yml", PACKAGING / "kubernetes" / "snapd-board.yaml"
# What a query has besides metrics of the server; `up` is Prometheus' own.
WORDS_OF_QUERIES = {"up", "sum", "rate", "by", "on", "group_left", "histogram_quantile", "label_values"}


def documents(path):
    """The documents of a YAML file, where there is a parser. Without one no line may have a tab or an odd quote."""
    for line in path.read_text().splitlines():
        assert "\t" not in line and (line.lstrip().startswith("#") or line.count('"') % 2 == 0), (path.name, line)
    try:
        import yaml
    except ImportError:
        raise Skipped("PyYAML isn't installed") from None
    return list(yaml.safe_load_all(path.read_text()))


def queries():
    """Each query of the dashboard and of the alerts."""
    board = json.loads(DASHBOARD.read_text())
    yield from (target["expr"] for panel in board["panels"] for target in panel["targets"])
    yield from (it["query"] for it in board["templating"]["list"] if it["type"] == "query")
    yield from re.findall(r"^ +expr: (.*)$", RULES.read_text(), re.M)


def metrics_in(query):
    """The metrics that a query names: its words without labels, lists of them, and what isn't a name."""
    bare = re.sub(r'"[^"]*"|\{[^}]*\}|\[[^]]*\]|\b(?:by|on|group_left) \([^)]*\)', " ", query)
    bare = re.sub(r"(label_values\s*\(\s*\w+)[^)]*", r"\1", bare)
    return set(re.findall(r"\b[a-z_]+\b", bare)) - WORDS_OF_QUERIES


def test_each_metric_that_is_asked_for_is_there(snapd, _):
    with SeenServer(snapd, *fresh(snapd, 2)) as server:
        snapd("call", server.address, "update", 0, 1, "6869").gave(0, "stored 1\n")
        there = {it.partition("{")[0] for it in server.metrics()}
    found = [*queries()]
    assert len(found) > 20
    for query in found:
        assert metrics_in(query) <= there, (query, metrics_in(query) - there)
    assert len(set().union(*map(metrics_in, found))) > 15
    assert metrics_in("rate(snapd_gone_total[5m])") - there == {"snapd_gone_total"}


def test_prometheus_takes_its_files(snapd, _):
    """And each query of the dashboard, as a rule."""
    promtool, queried = wanted("promtool"), snapd.file("dashboard.yml")
    panels = json.loads(DASHBOARD.read_text())["panels"]
    exprs = [it["expr"].replace("$__rate_interval", "5m") for panel in panels for it in panel["targets"]]
    rules = [{"record": f"query_{at}", "expr": it} for at, it in enumerate(exprs)]
    queried.write_text(json.dumps({"groups": [{"name": "dashboard", "rules": rules}]}))
    for words in (("config", PROMETHEUS / "prometheus.yml"), ("rules", RULES), ("rules", queried)):
        assert "FAILED" not in ran(promtool, "check", *words)


def test_the_dashboard_has_its_own_places(snapd, _):
    board = json.loads(DASHBOARD.read_text())
    taken = set()
    for panel in board["panels"]:
        at = panel["gridPos"]
        here = {(x, y) for x in range(at["x"], at["x"] + at["w"]) for y in range(at["y"], at["y"] + at["h"])}
        assert not here & taken and at["x"] + at["w"] <= 24 and panel["title"] and panel["description"], panel["title"]
        taken |= here
    assert len({it["id"] for it in board["panels"]}) == len(board["panels"]) > 10


def test_kubernetes_has_one_server_with_one_volume(snapd, _):
    """The commands of its manifest are run on files, a start and a restart, and its probes answered."""
    kinds = {it["kind"]: it["spec"] for it in documents(MANIFEST)}
    spec = kinds["StatefulSet"]
    pod, (claim,) = spec["template"]["spec"], spec["volumeClaimTemplates"]
    (init,), (server,) = pod["initContainers"], pod["containers"]
    assert spec["replicas"] == 1 and claim["spec"]["accessModes"] == ["ReadWriteOncePod"]
    labels = spec["template"]["metadata"]["labels"]
    of_policy = kinds["NetworkPolicy"]["podSelector"]["matchLabels"]
    assert labels == spec["selector"]["matchLabels"] == kinds["Service"]["selector"] == of_policy
    # It has no handler for a signal, so it mustn't be its container's first process.
    assert pod["shareProcessNamespace"] is True and pod["securityContext"]["runAsNonRoot"] is True
    assert init["image"] == server["image"] and server["image"].endswith(f":{version.version()}")
    here = {"/data/board": "board", "0.0.0.0:7070": "127.0.0.1:0", "0.0.0.0:7080": "127.0.0.1:0"}
    for said in ("formatted {} of 4", "kept {} of 4 number 0"):
        words = [here.get(it, it) for it in init["command"][1:]]
        snapd(*words).gave(0, "".join(said.format(index) + "\n" for index in range(4)))
    words = [here.get(it, it) for it in server["command"][1:]]
    assert words[:2] == ["serve", "127.0.0.1:0"] and words[-2:] == ["--http", "127.0.0.1:0"]
    with SeenServer(snapd, *words[2:-2]) as run:
        for probe in ("livenessProbe", "readinessProbe"):
            assert run.get(server[probe]["httpGet"]["path"])[0] == 200, probe


def test_prometheus_files_are_yaml(snapd, _):
    (config,), (rules,) = documents(PROMETHEUS / "prometheus.yml"), documents(RULES)
    assert config["rule_files"] == [RULES.name] and [it["job_name"] for it in config["scrape_configs"]] == ["snapd"]
    assert len(rules["groups"][0]["rules"]) == 4
