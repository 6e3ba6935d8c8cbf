#!/usr/bin/env python3
"""Installs the packages of Debian that the gate takes, where it runs as root. Otherwise one line names those that are
absent.

    tools/lib/packages.py

The companion and its tests need some of them: where one of these stays absent, the script fails. By the others more is
tried: completions in further shells, manual pages by a further formatter, the package in a fresh Debian, and what hsp
reads of the tools that write it.
"""
from __future__ import annotations

import os
import shutil
import subprocess
import sys

NEEDED = (
    "bzip2 chromium chromium-driver curl fonts-dejavu-core graphviz haproxy mypy openssl parallel procps "
    "python3-click python3-distributed python3-hypothesis python3-jinja2 python3-maxminddb python3-pil "
    "python3-pytest python3-pytest-xdist python3-scipy python3-selenium xz-utils"
).split()
WANTED = "apache2-bin dash debootstrap fish fping lintian mandoc nghttp2-client nginx-light rrdtool wrk zsh".split()


def absent(names: list[str]) -> list[str]:
    words = ["dpkg-query", "-W", "-f", "${Package} ${db:Status-Status}\n", *names]
    try:
        found = subprocess.run(words, stdout=subprocess.PIPE, stderr=subprocess.DEVNULL, text=True).stdout.splitlines()
    except FileNotFoundError:
        return names
    return [it for it in names if f"{it} installed" not in found]


def install(names: list[str]) -> None:
    """Installs packages, where this may be done."""
    if not names or os.geteuid() != 0 or not shutil.which("apt-get"):
        return
    environment = {**os.environ, "DEBIAN_FRONTEND": "noninteractive"}
    for words in (["apt-get", "update", "-qq"], ["apt-get", "install", "-y", "-qq", *names]):
        subprocess.run(words, env=environment, stdout=subprocess.DEVNULL, stderr=subprocess.DEVNULL)


def are_there() -> bool:
    """Installs what is absent, and prints what stays absent. Returns whether all that is needed is there."""
    install(absent(NEEDED))
    install(absent(WANTED))
    if lacking := absent(WANTED):
        print(f"NOT INSTALLED: {' '.join(lacking)}; less is tried")
    if lacking := absent(NEEDED):
        print(f"hsp cannot be tested without these packages of Debian: {' '.join(lacking)}", file=sys.stderr)
        return False
    print(f"packages: {len(NEEDED)} needed, all there")
    return True
