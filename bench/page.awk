# Writes docs/PERFORMANCE.md from the lines of bench/run: what, operation, side, value.
BEGIN {
    FS = "\t"
    n_ops = split("parse-rrsdes parse-sr31 parse-sdes31 walk-rrsdes walk-sdes31 lookup-sdes31 lookup-back31 lookup-walks31 parse-padded parse-priv31 write-rrsdes write-sr31 write-sdes31 write-compound write-padded write-priv31 reception-update reception-block", ops, " ")
    title["parse-rrsdes"] = "read RR+SDES"; title["parse-sr31"] = "read SR, 31 blocks"; title["parse-sdes31"] = "read SDES, 31 chunks"
    title["walk-rrsdes"] = "walk RR+SDES"; title["walk-sdes31"] = "walk SDES, 31 chunks"
    title["lookup-sdes31"] = "look up 30 SSRCs, SDES, 31 chunks"; title["lookup-back31"] = "the same, the last chunk first"
    title["lookup-walks31"] = "the same by 30 walks"
    title["parse-padded"] = "read RR+SDES, padded"; title["parse-priv31"] = "read SDES, 31 PRIV items"
    title["write-rrsdes"] = "write RR+SDES"; title["write-sr31"] = "write SR, 31 blocks"; title["write-sdes31"] = "write SDES, 31 chunks"
    title["write-compound"] = "write RR+SDES by a compound writer"
    title["write-padded"] = "write RR+SDES, padded"; title["write-priv31"] = "write SDES, 31 PRIV items"
    title["reception-update"] = "count an RTP packet"; title["reception-block"] = "fill a report block"
    n_peers = split("rtcp-types gstreamer libre pion", peers, " ")
    n_counted = split("ours bokyjave bokyjave-builder rtcp-types rtcp-types-builder rtcp-types-lto gstreamer libre pion", counted, " ")
    n_timed = split("bokyjave bokyjave-builder rtcp-types rtcp-types-builder rtcp-types-lto gstreamer libre pion", timed, " ")
}

$1 == "version" { version[$3] = $4 }
$1 == "ir" { ir[$2, $3] = $4 }
$1 == "ns" && (!(($2, $3) in ns) || $4 < ns[$2, $3]) { ns[$2, $3] = $4 }
$1 == "wrong" { wrong[$2, $3] = 1 }
$1 == "bytes" { bytes[$2] = $4 }
$1 == "growth-ir" { growth_ir[$2, $3] = $4 }
$1 == "growth-ns" && (!(($2, $3) in growth_ns) || $4 < growth_ns[$2, $3]) { growth_ns[$2, $3] = $4 }

function label(side) {
    if (side == "ours") return "ours"
    if (side == "rtcp-types") return "rtcp-types"
    if (side == "bokyjave") return "our crate"
    if (side == "bokyjave-builder" || side == "rtcp-types-builder") return "with its builder"
    if (side == "rtcp-types-lto") return "with LTO"
    if (side == "gstreamer") return "GStreamer"
    return side
}

function thousands(n, text) {
    text = n < 1000 ? n "" : int(n / 1000) "," sprintf("%03d", n % 1000)
    return text
}

function known(side) { return side in version ? label(side) " " version[side] : label(side) " (not here)" }

function row(cells, n, i, line) {
    line = "|"
    for (i = 1; i <= n; i++) line = line " " cells[i] " |"
    print line
}

function rule(n, i, line) {
    line = "|---|"
    for (i = 2; i <= n; i++) line = line "---:|"
    print line
}

# Leaves `best_side` and `best`.
function find_best(op, i) {
    best_side = ""
    for (i = 1; i <= n_peers; i++)
        if ((op, peers[i]) in ir && (best_side == "" || ir[op, peers[i]] < best)) { best_side = peers[i]; best = ir[op, peers[i]] }
}

function count_of(op, side) {
    if ((op, side) in wrong) return "wrong bytes"
    return (op, side) in ir ? thousands(ir[op, side]) : "-"
}

function parts(op, one, other) {
    return (op, one) in ir && (op, other) in ir ? sprintf("%.2f", ir[op, one] / ir[op, other]) : "-"
}

function ratio_of(op, side) {
    if ((op, side) in wrong) return "wrong bytes"
    return (op, side) in ns ? sprintf("%.2f", ns[op, side] / ns[op, "ours"]) : "-"
}

function print_share(i, op, cells) {
    print "| operation | ours | best peer | ours in parts of it | by hand | ours in parts of it | our crate | in parts of rtcp-types |"
    rule(8)
    for (i = 1; i <= n_ops; i++) {
        op = ops[i]
        find_best(op)
        cells[1] = title[op]; cells[2] = thousands(ir[op, "ours"])
        cells[3] = best_side == "" ? "-" : thousands(best) " (" label(best_side) ")"
        cells[4] = best_side == "" ? "-" : sprintf("%.2f", ir[op, "ours"] / best)
        cells[5] = count_of(op, "by-hand"); cells[6] = parts(op, "ours", "by-hand")
        cells[7] = count_of(op, "bokyjave"); cells[8] = parts(op, "bokyjave", "rtcp-types")
        row(cells, 8)
    }
}

function print_counts(i, k, cells) {
    cells[1] = "operation"
    for (k = 1; k <= n_counted; k++) cells[k + 1] = label(counted[k])
    row(cells, n_counted + 1)
    rule(n_counted + 1)
    for (i = 1; i <= n_ops; i++) {
        cells[1] = title[ops[i]]
        for (k = 1; k <= n_counted; k++) cells[k + 1] = count_of(ops[i], counted[k])
        row(cells, n_counted + 1)
    }
}

function print_times(i, k, cells) {
    cells[1] = "operation"; cells[2] = "ours, ns"
    for (k = 1; k <= n_timed; k++) cells[k + 2] = label(timed[k])
    row(cells, n_timed + 2)
    rule(n_timed + 2)
    for (i = 1; i <= n_ops; i++) {
        cells[1] = title[ops[i]]; cells[2] = sprintf("%.0f", ns[ops[i], "ours"])
        for (k = 1; k <= n_timed; k++) cells[k + 2] = ratio_of(ops[i], timed[k])
        row(cells, n_timed + 2)
    }
}

function print_growth(i, n, packets, cells) {
    n = split("1 10 100 1000", packets, " ")
    print "| packets | bytes | check, instructions a byte | check, ns a byte | walk, instructions a byte | walk, ns a byte | writing, instructions a byte | writing, ns a byte |"
    rule(8)
    for (i = 1; i <= n; i++) {
        cells[1] = thousands(packets[i]); cells[2] = thousands(bytes[packets[i]])
        cells[3] = sprintf("%.2f", growth_ir[packets[i], "parse"]); cells[4] = sprintf("%.2f", growth_ns[packets[i], "parse"] / bytes[packets[i]])
        cells[5] = sprintf("%.2f", growth_ir[packets[i], "walk"]); cells[6] = sprintf("%.2f", growth_ns[packets[i], "walk"] / bytes[packets[i]])
        cells[7] = sprintf("%.2f", growth_ir[packets[i], "fill"]); cells[8] = sprintf("%.2f", growth_ns[packets[i], "fill"] / bytes[packets[i]])
        row(cells, 8)
    }
}

END {
    print "# What reading and writing take"
    print ""
    print "`bench/run` measures and writes this page; `bench/run --check` counts our instructions alone and fails where one operation takes more"
    print "than the command allows it. Sides of this run: ours through the C functions of librtcp.a (as " version["kit"] " makes it; C by gcc " version["gcc"] " -O2),"
    print "and through the crate in rust/ (rustc " version["rustc"] ", the defaults of cargo's release profile);"
    print known("rtcp-types") ", its sources unchanged (compiled as the crate); " known("gstreamer") "; " known("libre") ";"
    print known("pion") " (Go " version["go"] ")."
    print ""
    print "## What is measured"
    print ""
    print "Five inputs (bench/inputs.tsv): a datagram of RR and SDES (100 bytes, one block, one chunk of four items), an SR with 31 blocks (772 bytes), an"
    print "SDES with 31 chunks of one item (500 bytes), the datagram with 4 bytes of padding, and an SDES with 31 chunks of one PRIV item (500 bytes)."
    print ""
    print "Reading checks the bytes and reads every field: each SSRC, the sender's numbers, the seven numbers of each block; of each SDES item the type, the"
    print "length of the value and its first byte. All fields are added up; the command fails where the sums of two sides differ. Writing writes the same"
    print "bytes from fields at hand, and the command holds them to the input."
    print ""
    print "- rtcp-types reads the datagram through its own compound.rs, with stand-ins for the feedback and XR packets that it names. It writes with builders"
    print "  made before the loop, so that only `write_into`, which checks and writes, is measured; 'with its builder' makes the builders in the loop."
    print "  'with LTO' has the whole program compiled as one, so that the crate's functions are merged into the loop that reads. None of the sides is"
    print "  compiled so by default, and the best peer below is taken without it. It refuses an SDES packet with padding, so it has no such row."
    print "- 'walk' reads the same fields by the calls of the walks, one for each packet, block, chunk and item. The walk over the datagram, or over the lone SDES, is"
    print "  opened, which checks all of it; walks over what a step hands over are not, as rtcp.h says; the program ends at the length or the body instead of asking"
    print "  for 25, and reads a block by its place. With every walk opened and asked to its 25, and blocks by their index, the same functions of rattle-kit-5b's archive took 1,659 and 9,847:"
    print "  more than rtcp-types for RR+SDES. No row counts `rtcp_item_walk_open` and `rtcp_rr_report_block`. Beside it stands what rtcp-types takes to read the"
    print "  same fields, which goes over them one by one too."
    print "- 'look up' answers for 30 SSRCs which chunk names each, by one call of `rtcp_sdes_lookup`: those of all chunks but the first, so that every chunk has to be"
    print "  looked at, in the packet's order and in the other one. 'By 30 walks' opens a walk for each SSRC and steps to its chunk; `bench/run --check` fails where one"
    print "  call takes more than a tenth of that. rtcp-types parses the packet once and goes over chunks and items for each SSRC; our crate parses it and makes"
    print "  the one call, which checks the packet once more."
    print "- Our crate runs the same program as rtcp-types: the same calls of the same names, its builders made before the loop or in it. Its compound builder"
    print "  writes each packet when it is added, so the row of the compound writer counts closing and copying alone; 'with its builder' counts all of it."
    print "- RR and SDES are written packet after packet, and once more by a compound writer: ours holds the rules of a compound, rtcp-types' own (its"
    print "  compound builder, made before the loop) only that padding comes last. pion writes a datagram by its compound in any case, which holds the rules;"
    print "  GStreamer and libre have none."
    print "- 'count an RTP packet' is one call of `rtcp_reception_update` for a packet in order, in the middle of a stream, and keeping what it returns; 'fill a report"
    print "  block' one call of `rtcp_reception_report_block`, with packets lost since the last block. The state goes in and comes back by value. By hand it is the"
    print "  RFC's own text of A.1, A.8 and A.3, with the same arguments. No peer has such a function among those that are linked here; our crate's two methods make"
    print "  one call each."
    print "- GStreamer reads and writes buffers made before the loop. Beyond one chunk it writes wrong bytes."
    print "- libre and pion allocate what they read; pion also what it writes, libre writes into a buffer made before the loop."
    print ""
    print "## Instructions"
    print ""
    print "By callgrind, (Ir(3N) - Ir(N)) / 2N with N = 1000. 'By hand' are the same C functions written by hand (bench/floor.c), with the same arguments, lists"
    print "and checks; of a refusal they do not say why: what the machine code of the proved functions is held against."
    print ""
    print_share()
    print ""
    print "Each side (pion on one thread, without the signals by which Go's runtime interrupts it, at which callgrind stops):"
    print ""
    print_counts()
    print ""
    print "## Time"
    print ""
    print "The best of 63 batches of 200, in the best of several rounds through all sides. Peers in parts of ours in the same run: 2.00 takes twice as long"
    print "as ours. The nanoseconds of ours are those of one shared machine, for orientation."
    print ""
    print_times()
    print ""
    print "## Growth"
    print ""
    print "`rtcp_compound_parse`, a whole walk (`rtcp_walk_open`, then `rtcp_walk_step` to the end), and writing by the compound writer's calls, of datagrams"
    print "that repeat RR, SDES with CNAME, SR, APP and BYE. The command fails where the instructions a byte at 1,000 packets are more than 2 % above those at 10. The datagram of one packet has"
    print "no CNAME, so it is refused once all of it is read; the calls are the same."
    print ""
    print_growth()
    print ""
    print "## Memory"
    print ""
    print "The archive refers to no function that allocates or frees (`nm -u`; the command fails where it does), and what is read is handed over as places in"
    print "the caller's own bytes. The command also lists the functions in which the compiler made a call of memcpy or memset."
}
