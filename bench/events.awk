# Prints a script with so many events over so many sessions: awk -v events=400000 -v sessions=1000 -f bench/events.awk
# Every session opens, every other one logs in, and for the rest of the events they ask for a passive port in turn.
# The clients are 4,096, and the ports 64.
function client(s) {
    return "10.0." int((s % 4096) / 256) "." (s % 256)
}

BEGIN {
    print "options pooled 50000 50063 connection passive 600 off restart"
    for (s = 1; s <= sessions; s++) {
        print "0 connect " s " " client(s) ":4000 10.1.0.9:21 " s
        done++
        if (s % 2 == 1) {
            print "0 user " s " ann"
            print "0 pass " s
            print "0 auth " s " good"
            done += 3
        }
    }
    for (k = 0; done < events; k++) {
        print "1 pasv " (1 + (k * 7919) % sessions) " " (k % 65536) " - -"
        done++
    }
}
