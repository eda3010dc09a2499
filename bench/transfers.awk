# Prints a script of so many sessions, each with an upload and a download: awk -v sessions=1000 -f bench/transfers.awk
# All log in, then all upload a file of their own, then all download it, then all close: 13 events a session. Each has a
# client address of its own, so none runs out of ports; the ports are 64. Numbers come in the order in which they are used,
# as a server draws them: those of the sessions, of the uploads, of the downloads. With -v mixed=1 a session's number is
# followed by those of its two links, so that numbers are used out of their order.
function number(s, nr) {
    return mixed ? 3 * s + nr : nr * sessions + s
}

function client(s) {
    return "10." int(s / 65536) "." int(s / 256) % 256 "." (s % 256)
}

# A file's bytes: five, in hexadecimal.
function bytes(s) {
    return sprintf("%010x", s)
}

# A passive port, the command, its data connection from the link that stands so far behind the session, and its end.
function move(s, command, nr) {
    print nr " pasv " number(s, 0) " " (s % 64) " - -"
    print nr " " command " " number(s, 0) " f" s
    print nr " data " number(s, nr) " " client(s) ":4001 " (50000 + s % 64)
    print nr " end " number(s, 0) "." nr
}

BEGIN {
    print "options pooled 50000 50063 connection passive 600 off restart"
    for (s = 1; s <= sessions; s++) {
        print "link " number(s, 1) " 65536 - " bytes(s)
        print "link " number(s, 2) " 65536 - ."
        print "0 connect " number(s, 0) " " client(s) ":4000 10.255.0.9:21 " s
        print "0 user " number(s, 0) " ann"
        print "0 pass " number(s, 0)
        print "0 auth " number(s, 0) " good"
    }
    for (s = 1; s <= sessions; s++)
        move(s, "stor", 1)
    for (s = 1; s <= sessions; s++)
        move(s, "retr", 2)
    for (s = 1; s <= sessions; s++)
        print "3 closed " number(s, 0)
}
