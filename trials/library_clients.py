"""What programs over a library do for each task of trials/tasks.py."""

import shlex
import sys
from pathlib import Path

from gateways import PASSWORD, WRITER
from shell_clients import UTF8

JAVA = Path(__file__).resolve().parent / "Tasks.java"
COMMONS_NET = "/usr/share/java/commons-net.jar"


def ftplib():
    front = "import ftplib\nf = ftplib.FTP(timeout=30)\nf.connect('{host}', {port})\n" + f"f.login('{WRITER}', '{PASSWORD}')\n"
    told = {
        "list": "f.dir()",
        "names": "print(f.nlst())",
        "list by a pattern": "f.dir('*.txt')",
        "names by a pattern": "print(f.nlst('many/f02?.txt'))",
        "list of a file": "f.dir('-la', 'a.txt')",
        "list of a directory": "print([name for name, _ in f.mlsd('many')])",
        "get": "f.retrbinary('RETR a.txt', open('{own}/got', 'wb').write)",
        "get of a big file": "f.retrbinary('RETR big.bin', open('{own}/got', 'wb').write)",
        "get of nothing": "f.retrbinary('RETR empty', open('{own}/got', 'wb').write)",
        "get of a name in UTF-8": f"f.retrbinary('RETR {UTF8}', open('{{own}}/got', 'wb').write)",
        "resumed get": "g = open('{own}/halfbig.bin', 'ab')\nf.retrbinary('RETR big.bin', g.write, rest=g.tell())",
        "put": "f.storbinary('STOR s.txt', open('{own}/s.txt', 'rb'))",
        "put of a big file": "f.storbinary('STOR big2.bin', open('{own}/big.bin', 'rb'))",
        "append": "f.storbinary('APPE a.txt', open('{own}/s.txt', 'rb'))",
        "way down and up": "f.cwd('sub')\nf.cwd('..')\nf.dir()",
        "make a directory": "f.mkd('new')",
        "remove a directory": "f.rmd('hollow')",
        "delete": "f.delete('a.txt')",
        "rename": "f.rename('a.txt', 'b.txt')",
        "size": "print(f.size('big.bin'))",
        "where": "f.cwd('sub')\nf.cwd('d2')\nprint(f.pwd())",
        "set a date": "f.sendcmd('MFMT 20200102030405 a.txt')\nprint(f.sendcmd('MDTM a.txt'))",
    }
    return {task: f"{shlex.quote(sys.executable)} -X utf8 -c " + shlex.quote(f"{front}{line}\nf.quit()\n") for task, line in told.items()}


def perl():
    front = f"use Net::FTP; my $f = Net::FTP->new('{{host}}', Port => {{port}}, Timeout => 30, Passive => 1) or die; $f->login('{WRITER}', '{PASSWORD}') or die; $f->binary; "
    told = {
        "list": 'print join("\\n", $f->dir)',
        "names": 'print join("\\n", $f->ls)',
        "names by a pattern": 'print join("\\n", $f->ls("many/f02*"))',
        "get": "$f->get('a.txt', '{own}/got') or die",
        "get of a big file": "$f->get('big.bin', '{own}/got') or die",
        "resumed get": "$f->get('big.bin', '{own}/halfbig.bin', {half}) or die",
        "put": "$f->put('{own}/s.txt', 's.txt') or die",
        "put of a big file": "$f->put('{own}/big.bin', 'big2.bin') or die",
        "make a directory": "$f->mkdir('new') or die",
        "remove a directory": "$f->rmdir('hollow') or die",
        "delete": "$f->delete('a.txt') or die",
        "rename": "$f->rename('a.txt', 'b.txt') or die",
        "size": "print $f->size('big.bin')",
        "put into new directories": "$f->mkdir('new/one', 1) or die; $f->put('{own}/s.txt', 'new/one/s.txt') or die",
        "remove a tree": "$f->rmdir('sub', 1) or die",
        "way down and up": "$f->cwd('sub'); $f->cdup or die; print join(qq(\\n), $f->dir)",
        "date": "print scalar gmtime($f->mdtm('a.txt'))",
        "where": "$f->cwd('sub/d2') or die; print $f->pwd",
    }
    return {task: "perl -e " + shlex.quote(f"{front}{line}; $f->quit;") for task, line in told.items()}


def php():
    front = f"$f = ftp_connect('{{host}}', {{port}}, 30); ftp_login($f, '{WRITER}', '{PASSWORD}') or die(1); ftp_pasv($f, true); "
    told = {
        "list": "print_r(ftp_rawlist($f, '/'));",
        "list of a directory": "print_r(ftp_mlsd($f, 'many'));",
        "names": "print_r(ftp_nlist($f, '/'));",
        "get": "ftp_get($f, '{own}/got', 'a.txt', FTP_BINARY);",
        "get of a big file": "ftp_get($f, '{own}/got', 'big.bin', FTP_BINARY);",
        "resumed get": "ftp_get($f, '{own}/halfbig.bin', 'big.bin', FTP_BINARY, FTP_AUTORESUME);",
        "put": "ftp_put($f, 's.txt', '{own}/s.txt', FTP_BINARY);",
        "resumed put": "ftp_put($f, 'part.bin', '{own}/big.bin', FTP_BINARY, FTP_AUTORESUME);",
        "way down and up": "ftp_chdir($f, 'sub'); ftp_cdup($f); print_r(ftp_rawlist($f, '.'));",
        "make a directory": "ftp_mkdir($f, 'new');",
        "remove a directory": "ftp_rmdir($f, 'hollow');",
        "delete": "ftp_delete($f, 'a.txt');",
        "rename": "ftp_rename($f, 'a.txt', 'b.txt');",
        "size": "print(ftp_size($f, 'big.bin'));",
        "where": "ftp_chdir($f, 'sub/d2'); print(ftp_pwd($f));",
        "date": "print(gmdate('Y', ftp_mdtm($f, 'a.txt')));",
    }
    return {task: "php -r " + shlex.quote(f"{front}{line} ftp_close($f);") for task, line in told.items()}


def java():
    """Apache's commons-net."""
    told = ["list", "list of a directory", "names", "get", "get of a big file", "get of nothing", "resumed get", "put", "put of a big file", "append"]
    told += ["way down and up", "make a directory", "remove a directory", "delete", "rename", "size", "where", "date"]
    front = f"java -cp {COMMONS_NET} {JAVA} {{host}} {{port}} {WRITER} {PASSWORD} {{own}} "
    return {task: front + shlex.quote(task) for task in told}


CLIENTS = {made.__name__: made() for made in (ftplib, perl, php, java)}
