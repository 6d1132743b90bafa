# Reads a journal as decimal byte values, however many a line, and tells its records as they come: those of the area that the eighth byte
# names. It keeps one line of bytes, the files in effect, and of the last 100,000 puts those that are not done.
#
# With `-v joined=1` the bytes between the eighth and the area are left out of what it reads. With `-v partial=1` it reads a front of the
# journal, and ends with 9 where that is not enough; what it told is nothing then.
#
#   setup N L B PROFILE ROUNDS PICKS TOLERANCE
#   start ID NAME, done ID LENGTH PROFILE, drop NAME, audit-start NUMBER, audit-done NUMBER UNDECIDED COUNT .., repair-done NUMBER, upgrade
#   resume ID NUMBER, held ID LENGTH PROFILE NAME, due NUMBER COUNT ..
#                                  what a pack writes: the number of the next put and of the next audit, each file in effect, and the audit
#                                  whose repair is due
#   past ID LENGTH PROFILE NAME    behind the record that took a file out of effect: its number, length, profile and name
#   cut ID NAME                    behind a start stands another record than its end: a command never writes the end later. It is not told
#                                  where that record is one of an audit or a repair with the same number, which may be the end, altered
#
# The profile of a file is that which its end names, or the setup's where that names none.
#
# After the closed gate:
#
#   file ID LENGTH PROFILE NAME    a file in effect, in no order
#   cut ID NAME                    the last record is a start
#   version NUMBER                 2 behind an upgrade, else 1
#   next ID NUMBER                 the number of the next put and of the next audit
#   text BYTES                     the length of the text, with its closed gate: in the first area from the start of the journal, in the
#                                  second from where that begins
#   beyond ID                      behind the end stands the end of this put, as a stop leaves it, or a gate that was altered
#   odd                            some end does not stand right behind its start, or behind the text stands what is no record: which puts
#                                  were cut off is not sure
#
# Ends with 1 where the bytes are no journal. It judges spellings alone; whether a record may follow those before it, the program says.
# Numbers of 8 bytes are told exactly below 2^53, as awk has them; one from there on is refused, as it would be told as another.

# There is one more byte.
function more() {
    while (place >= NF) {
        if (getline <= 0) {
            if (partial) exit 9
            return 0
        }
        place = 0
    }
    return 1
}

function byte() {
    if (!more()) bad("it ends early")
    at++
    return $(++place)
}

# Goes on at the second area, line by line.
function go_to_second(    step) {
    if (joined) at = 8388608
    while (at < 8388608) {
        if (!more()) bad("the second area is not there")
        step = NF - place
        if (at + step > 8388608) step = 8388608 - at
        place += step
        at += step
    }
}

function number(size,    i, sum, weight, value) {
    weight = 1
    for (i = 0; i < size; i++) {
        value = byte()
        if (i == 6 && value > 31 || i == 7 && value > 0) refuse("a number of 2^53 or more, to which the companions do not count,")
        sum += value * weight
        weight *= 256
    }
    return sum
}

function name(    i, text, size) {
    size = byte()
    if (size < 1 || size > 64) bad("a name has a wrong length")
    for (i = 0; i < size; i++) text = text letters[byte() + 0]
    return text
}

# Behind the end of the text nothing is wrong: it may be anything. The rest is read all the same, since who writes it must end well.
function refuse(what) {
    if (!beyond) {
        printf "%s at byte %d\n", what, at > "/dev/stderr"
        exit 1
    }
    print "odd"
    while (getline > 0) { }
    exit 0
}

function bad(why) {
    refuse("no journal: " why)
}

function tell(line) {
    if (!beyond) print line
}

function setup(    i, line) {
    line = "setup"
    for (i = 0; i < 6; i++) {
        field[i] = byte()
        line = line " " field[i]
    }
    if (!beyond) profile_of_setup = field[3]
    line = line " " number(2)
    for (i = 0; i < 32; i++) byte()
    tell(line)
}

# A file goes out of effect, if the name has one.
function forget(text) {
    if (text in of_name) tell("past " of_name[text] " " length_of[text] " " profile_of[text] " " text)
    delete of_name[text]
    delete length_of[text]
    delete profile_of[text]
}

function started(    text) {
    last = number(8)
    text = name()
    begun[last] = text
    delete begun[last - 100000]
    next_id = last + 1
    tell("start " last " " text)
}

# The profile that the end of a put names.
function own_profile(    own) {
    own = byte()
    if (own > 4) bad("a profile is unknown")
    return own
}

function done(before, kind,    id, size, profile, text) {
    id = number(8)
    size = number(4)
    profile = kind == 8 ? own_profile() : profile_of_setup
    tell("done " id " " size " " profile)
    if (id != before || !(id in begun)) odd = 1
    if (beyond) print "beyond " id
    if (!(id in begun)) return
    text = begun[id]
    delete begun[id]
    forget(text)
    of_name[text] = id
    length_of[text] = size
    profile_of[text] = profile
}

# A file in effect, as a pack writes it.
function held(    id, size, profile, text) {
    id = number(8)
    size = number(4)
    profile = own_profile()
    text = name()
    tell("held " id " " size " " profile " " text)
    of_name[text] = id
    length_of[text] = size
    profile_of[text] = profile
}

function resumed() {
    next_id = number(8)
    next_audit = number(8)
    tell("resume " next_id " " next_audit)
}

function due(    i, n, line) {
    line = "due " number(8)
    n = byte()
    for (i = 0; i < n; i++) line = line " " number(4)
    tell(line)
}

function dropped(    text) {
    text = name()
    tell("drop " text)
    forget(text)
}

function cut_off(before) {
    if (before) tell("cut " before " " begun[before])
}

# The number that a record of an audit or a repair begins with.
function number_but(before,    number_of) {
    number_of = number(8)
    if (before != number_of) cut_off(before)
    return number_of
}

function audit_started(before,    number_of) {
    number_of = number_but(before)
    next_audit = number_of + 1
    tell("audit-start " number_of)
}

function audited(before,    i, n, line) {
    line = "audit-done " number_but(before) " " number(4)
    n = byte()
    for (i = 0; i < n; i++) line = line " " number(4)
    tell(line)
}

function repaired(before,    number_of) {
    number_of = number_but(before)
    tell("repair-done " number_of)
}

function upgraded() {
    if (byte() != 2) bad("a version is unknown")
    if (!beyond) version = 2
    tell("upgrade")
}

# The put whose start was the record before, or 0, is told as cut off where another record follows than its end.
function one_record(    kind, before) {
    kind = byte()
    before = last
    last = 0
    if (kind == 3 || kind == 8) { done(before, kind); return }
    if (kind == 5) { audit_started(before); return }
    if (kind == 6) { audited(before); return }
    if (kind == 7) { repaired(before); return }
    cut_off(before)
    if (kind == 1) setup()
    else if (kind == 2) started()
    else if (kind == 4) dropped()
    else if (kind == 9) upgraded()
    else if (kind == 10) resumed()
    else if (kind == 11) held()
    else if (kind == 12) due()
    else { at--; bad("a kind of record is unknown") }
}

# Tells what follows from the records. The gate behind them is read.
function tell_end(    text) {
    for (text in of_name) print "file " of_name[text] " " length_of[text] " " profile_of[text] " " text
    if (last) print "cut " last " " begun[last]
    print "version " version
    print "next " next_id " " next_audit
    print "text " at - base
}

BEGIN {
    OFMT = CONVFMT = "%.0f" # else some tell whole numbers from 2^31 on as 2.14748e+09
    for (at = 0; at < 256; at++) letters[at] = sprintf("%c", at)
    split("72 65 73 76 74 82 78", magic, " ")
    next_id = next_audit = version = 1
    for (at = 0; at < 7;) if (byte() != magic[at]) { at = 0; bad("it does not begin as one") }
    if (byte() == 50) { go_to_second(); base = at }
    gate = byte()
    if (!more()) bad("no store is set up")
    for (; gate == 1; gate = byte()) one_record()
    tell_end()
    beyond = 1
    while (more()) { one_record(); byte() }
    if (odd) print "odd"
}
