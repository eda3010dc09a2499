# Prints a script with so many events over so many sessions, whose log is short for its entries:
#
#     awk -v events=1000000 -v sessions=1000 -f bench/log.awk
#
# Every session opens and logs in, and then each in turn asks for a passive port, is looked at twice, and gives the port up. The clients
# are 4,096, and the ports 64.
function client(s) {
    return "10.0." int((s % 4096) / 256) "." (s % 256)
}

BEGIN {
    print "options pooled 50000 50063 connection passive 600 off restart"
    for (s = 1; s <= sessions; s++) {
        print "0 connect " s " " client(s) ":4000 10.1.0.9:21 " s
        print "0 user " s " ann"
        print "0 pass " s
        print "0 auth " s " good"
    }
    for (done = 4 * sessions; done < events; done += 4) {
        s = 1 + (done * 7919) % sessions
        print "1 pasv " s " " (done % 65536) " - -"
        print "1 slot " s
        print "1 idle " s
        print "1 abor " s
    }
}
