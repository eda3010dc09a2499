# A script in which 65,000 sessions of the address `crowd` hold the ports 1 to 65000, and one more session, of 10.0.0.1,
# asks n times for a port, each time with the same word: awk -v crowd=10.0.0.1 -v word=0 -v n=100000 -f bench/crowd.awk
BEGIN {
    print "options pooled 1 65535 connection passive 600 off restart"
    for (s = 1; s <= 65000; s++) {
        login(s, crowd)
        print "0 pasv " s " " s - 1 " - -"
    }
    login(65001, "10.0.0.1")
    for (i = 0; i < n; i++)
        print "1 pasv 65001 " word " - -"
}

function login(s, ip) {
    print "0 connect " s " " ip ":4000 10.0.0.9:21 " s
    print "0 user " s " ann"
    print "0 pass " s
    print "0 auth " s " good"
}
