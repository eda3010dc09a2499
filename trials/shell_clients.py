"""What clients of a shell are told for each task of trials/tasks.py."""

import shlex

from gateways import PASSWORD, WRITER

UTF8 = "ünï-π.txt"
URL = f"ftp://{WRITER}:{PASSWORD}@{{host}}:{{port}}"
SPACE, ENCODED = "with space.txt", "%C3%BCn%C3%AF-%CF%80.txt"


def curl():
    told = "curl -sS --interface {source} "
    get = told + "-o {own}/got " + URL
    return {
        "list": told + URL + "/",
        "list of a directory": told + URL + "/many/",
        "names": told + "-l " + URL + "/",
        "list by a pattern": told + "--ftp-method nocwd " + URL + "/%2A.txt/",
        "names by a pattern": told + "-l -X 'NLST f02*' " + URL + "/many/",
        "list of a file": told + "-X 'LIST a.txt' " + URL + "/",
        "get": get + "/a.txt",
        "get of nothing": get + "/empty",
        "get of a big file": get + "/big.bin",
        "get of a name with a space": get + "/with%20space.txt",
        "get of a name in UTF-8": get + "/" + ENCODED,
        "get from below": get + "/sub/d2/d3/deep.txt",
        "resumed get": told + "-C - -o {own}/halfbig.bin " + URL + "/big.bin",
        "put": told + "-T {own}/s.txt " + URL + "/",
        "put of nothing": told + "-T {own}/zero " + URL + "/",
        "put of a big file": told + "-T {own}/big.bin " + URL + "/big2.bin",
        "put over a file": told + "-T {own}/s.txt " + URL + "/big.bin",
        "put of a name with a space": told + "-T '{own}/sp ace.txt' " + URL + "/sp%20ace.txt",
        "put of a name in UTF-8": told + "-T {own}/ü.txt " + URL + "/%C3%BC.txt",
        "put below": told + "-T {own}/s.txt " + URL + "/sub/d2/",
        "resumed put": told + "-C {half} -T {own}/big.bin " + URL + "/part.bin",
        "append": told + "-a -T {own}/s.txt " + URL + "/a.txt",
        "make a directory": told + "-o {own}/got -Q 'MKD new' " + URL + "/",
        "delete": told + "-o {own}/got -Q 'DELE a.txt' " + URL + "/",
        "rename": told + "-o {own}/got -Q 'RNFR a.txt' -Q 'RNTO b.txt' " + URL + "/",
        "put into new directories": told + "--ftp-create-dirs -T {own}/s.txt " + URL + "/new/one/",
        "remove a directory": told + "-o {own}/got -Q 'RMD hollow' " + URL + "/",
        "get with its date": told + "-R -o {own}/got " + URL + "/a.txt",
        "size": told + "-I " + URL + "/big.bin",
    }


def wget():
    told = "wget -q -t 1 -T 30 "
    get = told + "-O {own}/got " + URL
    return {
        "list": "sh -c '" + told + "--no-remove-listing -P {own}/down " + URL + "/ && cat {own}/down/.listing'",
        "get": get + "/a.txt",
        "get of nothing": get + "/empty",
        "get of a big file": get + "/big.bin",
        "get of a name with a space": get + "/with%20space.txt",
        "get of a name in UTF-8": get + "/" + ENCODED,
        "get from below": get + "/sub/d2/d3/deep.txt",
        "resumed get": told + "-c -O {own}/halfbig.bin " + URL + "/big.bin",
        "get with its day": "sh -c '" + told + "-N -P {own}/down " + URL + "/a.txt && mv {own}/down/a.txt {own}/got'",
        "mirror down": told + "-m -nH --cut-dirs=1 -P {own}/down " + URL + "/sub/",
    }


def lftp():
    told = {
        "list": "ls",
        "list of a directory": "ls many",
        "names": "nlist",
        "list by a pattern": "ls *.txt",
        "names by a pattern": "nlist many/f02?.txt",
        "list of a file": "ls a.txt",
        "get": "get a.txt -o {own}/got",
        "get of nothing": "get empty -o {own}/got",
        "get of a big file": "get big.bin -o {own}/got",
        "get of a name with a space": 'get "with space.txt" -o {own}/got',
        "get of a name in UTF-8": f"get {UTF8} -o {{own}}/got",
        "get from below": "cd sub/d2; get d3/deep.txt -o {own}/got",
        "resumed get": "get -c big.bin -o {own}/halfbig.bin",
        "get of many": "mget -O {own}/down many/*",
        "mirror down": "mirror sub {own}/down",
        "put": "put {own}/s.txt",
        "put of nothing": "put {own}/zero",
        "put of a big file": "put {own}/big.bin -o big2.bin",
        "put over a file": "put {own}/s.txt -o big.bin",
        "put of a name with a space": 'put "{own}/sp ace.txt"',
        "put of a name in UTF-8": "put {own}/ü.txt",
        "put below": "cd sub; put -O d2 {own}/s.txt",
        "resumed put": "put -c {own}/big.bin -o part.bin",
        "way down and up": "cd sub; cd ..; ls",
        "make a directory": "mkdir new",
        "remove a directory": "rmdir hollow",
        "delete": "rm a.txt",
        "rename": "mv a.txt b.txt",
        "put into new directories": "mkdir -p new/one; put -O new/one {own}/s.txt",
        "get with its date": "get a.txt -o {own}/got",
        "put with its date": "put {own}/s.txt",
        "mirror up": "mirror -R {own}/up new",
        "mirror up twice": "mirror -R {own}/up new; mirror -R -v {own}/up new",
        "remove a tree": "rm -r sub",
        "size": "cls -l --filesize big.bin",
        "where": "cd sub/d2; pwd",
        "date": "cls -l --time-style=%Y a.txt",
    }
    front = "set net:timeout 30; set net:max-retries 1; set net:reconnect-interval-base 1; set cmd:fail-exit true; "
    front += "set xfer:clobber true; open -u " + f"{WRITER},{PASSWORD} " + "ftp://{host}:{port}; "
    return {task: f"lftp --norc -c '{front}{line}'" for task, line in told.items()}


def ncftp():
    words = f"-V -t 30 -u {WRITER} -p {PASSWORD} -P {{port}} "
    get, put = "ncftpget " + words + "-C {host} ", "ncftpput " + words
    ls = f"ncftpls -t 30 -u {WRITER} -p {PASSWORD} -P {{port}} ftp://{{host}}/"
    return {
        "list": ls,
        "list of a directory": ls + "many/",
        "get": get + "a.txt {own}/got",
        "get of nothing": get + "empty {own}/got",
        "get of a big file": get + "big.bin {own}/got",
        "get of a name in UTF-8": get + UTF8 + " {own}/got",
        "put": put + "{host} / {own}/s.txt",
        "put of nothing": put + "{host} / {own}/zero",
        "put of a big file": put + "-C {host} {own}/big.bin big2.bin",
        "append": put + "-A -C {host} {own}/s.txt a.txt",
        "get with its date": get + "a.txt {own}/got",
        "put with its date": put + "{host} / {own}/s.txt",
        "resumed get": "ncftpget " + words + "-z -C {host} big.bin {own}/halfbig.bin",
        "get of many": "ncftpget " + words + "{host} {own}/down '/many/*.txt'",
        "mirror down": "sh -c 'ncftpget " + words + "-R {host} {own}/down /sub && mv {own}/down/sub/* {own}/down/'",
        "mirror up": "sh -c 'mv {own}/up {own}/new; ncftpput " + words + "-R {host} / {own}/new'",
        "put into new directories": put + "-m {host} /new/one {own}/s.txt",
        "delete beside a put": put + "-X 'DELE a.txt' {host} / {own}/s.txt",
    }


def terminal(program, first=""):
    told = {
        "list": "ls",
        "list of a directory": "ls many",
        "list by a pattern": "ls *.txt",
        "get": "get a.txt {own}/got",
        "get of nothing": "get empty {own}/got",
        "get of a big file": "get big.bin {own}/got",
        "get of a name with a space": 'get "with space.txt" {own}/got',
        "get of a name in UTF-8": f"get {UTF8} {{own}}/got",
        "get from below": "cd sub\ncd d2\nget d3/deep.txt {own}/got",
        "resumed get": "lcd {own}\nreget big.bin halfbig.bin",
        "get of many": "cd many\nlcd {own}/down\nmget f*",
        "put": "lcd {own}\nput s.txt",
        "put of nothing": "lcd {own}\nput zero",
        "put of a big file": "lcd {own}\nput big.bin big2.bin",
        "put below": "lcd {own}\ncd sub/d2\nput s.txt",
        "put under a name of the server's": "sunique\nlcd {own}\nput s.txt",
        "append": "append {own}/s.txt a.txt",
        "way down and up": "cd sub\ncdup\nls",
        "make a directory": "mkdir new",
        "remove a directory": "rmdir hollow",
        "delete": "delete a.txt",
        "rename": "rename a.txt b.txt",
        "size": "size big.bin",
        "where": "cd sub/d2\npwd",
        "date": "modtime a.txt",
    }
    front = "open {host} {port}\nuser " + f"{WRITER} {PASSWORD}\n" + first + "binary\n"
    return {task: (program + " -n -i", front + line + "\nbye\n") for task, line in told.items()}


def tnftp():
    return {**terminal("tnftp"), "names": ("tnftp -n", f"open {{host}} {{port}}\nuser {WRITER} {PASSWORD}\nnlist\nbye\n")}


def inetutils():
    return terminal("inetutils-ftp", "verbose\npassive\n")


def rclone():
    far = f":ftp,host={{host}},port={{port}},user={WRITER},pass=$(rclone obscure {PASSWORD}):"
    told = {
        "list": f'lsf "{far}"',
        "list of a directory": f'lsl "{far}many"',
        "get": f'copyto "{far}a.txt" {{own}}/got',
        "get of nothing": f'copyto "{far}empty" {{own}}/got',
        "get of a big file": f'copyto "{far}big.bin" {{own}}/got',
        "get of a name with a space": f'copyto "{far}{SPACE}" {{own}}/got',
        "get of a name in UTF-8": f'copyto "{far}{UTF8}" {{own}}/got',
        "get from below": f'copyto "{far}sub/d2/d3/deep.txt" {{own}}/got',
        "mirror down": f'sync "{far}sub" {{own}}/down',
        "put": f'copyto {{own}}/s.txt "{far}s.txt"',
        "put of nothing": f'copyto {{own}}/zero "{far}zero"',
        "put of a big file": f'copyto {{own}}/big.bin "{far}big2.bin"',
        "put of a name with a space": f"copyto '{{own}}/sp ace.txt' \"{far}sp ace.txt\"",
        "put of a name in UTF-8": f'copyto {{own}}/ü.txt "{far}ü.txt"',
        "put into new directories": f'copyto {{own}}/s.txt "{far}new/one/s.txt"',
        "get with its date": f'copyto "{far}a.txt" {{own}}/got',
        "put with its date": f'copyto {{own}}/s.txt "{far}s.txt"',
        "mirror up": f'sync {{own}}/up "{far}new"',
        "make a directory": f'mkdir "{far}new"',
        "remove a directory": f'rmdir "{far}hollow"',
        "delete": f'deletefile "{far}a.txt"',
        "remove a tree": f'purge "{far}sub"',
        "rename": f'moveto "{far}a.txt" "{far}b.txt"',
        "size": f'lsl "{far}" --include big.bin',
        "date": f'lsl "{far}" --include a.txt',
    }
    front = "rclone --config /dev/null --retries 1 --low-level-retries 2 --contimeout 30s --timeout 30s "
    return {task: "sh -c " + shlex.quote(front + line) for task, line in told.items()}


def busybox():
    told = f"-u {WRITER} -p {PASSWORD} -P {{port}} {{host}} "
    return {
        "get": "busybox ftpget " + told + "{own}/got a.txt",
        "get of a big file": "busybox ftpget " + told + "{own}/got big.bin",
        "get of nothing": "busybox ftpget " + told + "{own}/got empty",
        "resumed get": "busybox ftpget -c " + told + "{own}/halfbig.bin big.bin",
        "put": "busybox ftpput " + told + "s.txt {own}/s.txt",
        "put of a big file": "busybox ftpput " + told + "big2.bin {own}/big.bin",
    }


def wput():
    return {
        "put": "sh -c 'cd {own} && wput -q -t 1 s.txt " + URL + "/'",
        "put of a big file": "sh -c 'cd {own} && wput -q -t 1 big.bin " + URL + "/big2.bin'",
        "put into new directories": "sh -c 'cd {own} && wput -q -t 1 s.txt " + URL + "/new/one/'",
        "resumed put": "sh -c 'cd {own} && mv big.bin part.bin && wput -q -t 1 part.bin " + URL + "/'",
        "mirror up": "sh -c 'cd {own}/up && wput -q -B -t 1 . " + URL + "/new/'",
    }


def axel():
    told = "axel -q -o {own}/got "
    return {"get": told + "-n 1 " + URL + "/a.txt", "get of a big file": told + "-n 4 " + URL + "/big.bin"}


def aria2c():
    told = "aria2c -q --timeout=30 --connect-timeout=30 -m 1 -d {own} "
    get = told + "-o got " + URL
    return {
        "get": get + "/a.txt",
        "get of nothing": get + "/empty",
        "get of a big file": told + "-x 4 -s 4 -k 1M -o got " + URL + "/big.bin",
        "get of a name with a space": get + "/with%20space.txt",
        "get from below": get + "/sub/d2/d3/deep.txt",
        "resumed get": told + "-c -o halfbig.bin " + URL + "/big.bin",
    }


def yafc():
    told = {
        "list": "ls",
        "list of a directory": "ls many",
        "get": "get -o {own}/got a.txt",
        "get of a big file": "get -o {own}/got big.bin",
        "mirror down": "lcd {own}/down\nget -r sub/d2",
        "put": "lcd {own}\nput s.txt",
        "make a directory": "mkdir new",
        "remove a directory": "rmdir hollow",
        "delete": "rm a.txt",
        "rename": "mv a.txt b.txt",
    }
    return {task: ("yafc -q " + URL, line + "\nquit\n") for task, line in told.items()}


def gvfs():
    """The files of GNOME's programs."""
    far = f"ftp://{WRITER}@{{host}}:{{port}}"
    told = {
        "list": f"gio list {far}/",
        "get": f"gio copy {far}/a.txt {{own}}/got",
        "get of a big file": f"gio copy {far}/big.bin {{own}}/got",
        "get from below": f"gio copy {far}/sub/d2/d3/deep.txt {{own}}/got",
        "put": f"gio copy {{own}}/s.txt {far}/s.txt",
        "put of a big file": f"gio copy {{own}}/big.bin {far}/big2.bin",
        "make a directory": f"gio mkdir {far}/new",
        "delete": f"gio remove {far}/a.txt",
        "rename": f"gio rename {far}/a.txt b.txt",
    }
    mount = f"echo {PASSWORD} | gio mount {far} > mounted 2>&1; "
    return {task: "dbus-run-session -- sh -c " + shlex.quote(mount + line + "; e=$?; rm mounted; exit $e") for task, line in told.items()}

CLIENTS = {
    made.__name__: made() for made in (curl, wget, lftp, ncftp, tnftp, inetutils, rclone, busybox, wput, axel, aria2c, yafc, gvfs)
}
