"""What each client is told, by client and operation: a command line, or a pair of one and its input.

{file} is a file that is to be stored as {name}, or {got} where a fetched one is to be; {rest} is the end of that file, from
{part} on. {sent} is a folder of many files, which are {files} and on the server {names}, and {folder} is where many are to
be. {source} is the client's address. An operation that begins with `refused` is one at which the client says that it failed,
and one that begins with `vain` does nothing, without its saying so.
"""

LFTP = (
    "set net:timeout 20; set net:max-retries 1; set net:reconnect-interval-base 1; "
    "set cmd:fail-exit true; set xfer:clobber true; set net:socket-bind-ipv4 {source}; "
    "open -u ann,secret ftp://{host}:{port}; "
)
CURL = "curl -sS --interface {source} "
WGET = "wget -q -t 1 -T 20 --bind-address={source} "
NCFTP = "-V -t 20 -u ann -p secret -P {port} "
NCFTPLS = "ncftpls -t 20 -u ann -p secret -P {port} "
TNFTP = "open {host} {port}\nuser ann secret\nbinary\n"
BUSYBOX = "-u ann -p secret -P {port} {host} "


def curl():
    return {
        "upload": CURL + "-T {file} {url}/{name}",
        "download": CURL + "-o {got} {url}/{name}",
        "resumed upload": CURL + "-C {part} -T {file} {url}/{name}",
        "resumed download": CURL + "-C - -o {got} {url}/{name}",
        "append": CURL + "-a -T {rest} {url}/{name}",
        "range": CURL + "-r 1000-{part} -o {got} {url}/{name}",
        "list": CURL + "{url}/",
        "names": CURL + "-l {url}/",
        "facts": CURL + "-X MLSD {url}/",
        "many uploads": CURL + "-Z --parallel-max 8 {uploads}",
        "many downloads": CURL + "-Z --parallel-max 8 {downloads}",
        "refused download": CURL + "-o {got} {url}/{name}",
    }


def wget():
    return {
        "download": WGET + "-O {got} {url}/{name}",
        "resumed download": WGET + "-c -O {got} {url}/{name}",
        "list": "sh -c '" + WGET + "--no-remove-listing -P {folder} {url}/ && cat {folder}/.listing'",
        "many downloads": WGET + "-r -nH -P {folder} {url}/",
        "refused download": WGET + "-O {got} {url}/{name}",
    }


def lftp():
    told = {
        "upload": "put {file} -o {name}",
        "download": "get {name} -o {got}",
        "resumed upload": "put -c {file} -o {name}",
        "resumed download": "get -c {name} -o {got}",
        "list": "ls",
        "names": "nlist",
        "many uploads": "mirror -R --parallel=8 {sent} /",
        "many downloads": "mirror --parallel=8 / {folder}",
        "refused download": "get {name} -o {got}",
    }
    return {operation: "lftp -c '" + LFTP + line + "'" for operation, line in told.items()}


def ncftp():
    """It resumes by SIZE and lists behind a PWD, which the server has not; a part that it has it takes for the whole."""
    return {
        "upload": "ncftpput " + NCFTP + "-C {host} {file} {name}",
        "download": "ncftpget " + NCFTP + "-C {host} {name} {got}",
        "append": "ncftpput " + NCFTP + "-A -C {host} {rest} {name}",
        "many uploads": "ncftpput " + NCFTP + "{host} / {files}",
        "many downloads": "ncftpget " + NCFTP + "{host} {folder} {names}",
        "vain resumed download": "ncftpget " + NCFTP + "-z -C {host} {name} {got}",
        "refused download": "ncftpget " + NCFTP + "-C {host} {name} {got}",
        "refused list": NCFTPLS + "ftp://{host}/",
    }


def tnftp():
    """It takes each name of a `mget` from an NLST of that name, which `ftp_serve` has of directories alone."""
    told = {
        "upload": "put {file} {name}",
        "download": "get {name} {got}",
        "resumed upload": "restart {part}\nput {file} {name}",
        "resumed download": "reget {name} {got}",
        "append": "append {rest} {name}",
        "list": "ls",
        "names": "nlist",
        "facts": "mlsd",
        "many uploads": "prompt\nlcd {sent}\nmput {names}",
        "many downloads by name": "prompt\nlcd {folder}\nmget {names}",
    }
    return {operation: ("tnftp -n", TNFTP + line + "\nbye\n") for operation, line in told.items()}


def busybox():
    return {
        "upload": "busybox ftpput " + BUSYBOX + "{name} {file}",
        "download": "busybox ftpget " + BUSYBOX + "{got} {name}",
        "resumed download": "busybox ftpget -c " + BUSYBOX + "{got} {name}",
        "download by wget": "busybox wget -q -O {got} {url}/{name}",
        "refused download": "busybox ftpget " + BUSYBOX + "{got} {name}",
    }


CLIENTS = {made.__name__: made() for made in (curl, wget, lftp, ncftp, tnftp, busybox)}
# The program that a client is installed by, where it is not named as the client.
INSTALLED = {"ncftp": "ncftpput"}
