# awk -v seed=S -v count=N -v kind=blocks|stores -f draw.awk: a script of N drawn lines, of which many are refused. `blocks` is for an image
# of 4 blocks of 64 bytes, `stores` for one of 48 blocks of 256 with 8 and 8 blocks for the stores.
function below(n) { state = (state * 1103515245 + 12345) % 2147483648; return int(state / 65536) % n }
function bytes(n,    i, out) { for (i = 0; i < n; i++) out = out sprintf("%02x", below(256)); return out }
function op_on_blocks(    k) {
    k = below(40)
    if (k < 8) return "begin" (below(4) ? "" : below(2) ? " serial" : " snapshot")
    if (k < 14) return "put " below(5) " " below(66) " " bytes(1 + below(6))
    if (k < 18) return "get " below(5) " " below(66) " " below(8)
    if (k < 20) return "read " below(5)
    if (k < 22) return "write " below(4) " " bytes(below(8) ? 64 : 63)
    if (k < 23) return "fill " below(5) " " bytes(1)
    if (k < 26) return "mark " below(66) " " below(6)
    if (k < 32) return "end"
    if (k < 33) return "abort"
    if (k < 35) return "release " substr("abc", 1 + below(3), 1)
    if (k < 36) return "takeover " substr("abc", 1 + below(3), 1)
    if (k < 37) return "group a b c a"
    if (k < 38) return "compact"
    if (k < 39) return below(2) ? "trim" : "stat"
    return below(8) ? "stat" : "upgrade"
}
function key(first) { return below(30) ? first sprintf("%02x", 48 + below(9)) : "-" }
function op_on_stores(    k) {
    k = below(40)
    if (k < 7) return "begin"
    if (k < 10) return "hput " key("68") " " bytes(1 + below(33))
    if (k < 12) return "hget " key("68")
    if (k < 13) return "hdel " key("68")
    if (k < 17) return "tput " key("6b") " " bytes(1 + below(32))
    if (k < 19) return "tget " key("6b")
    if (k < 20) return "tdel " key("6b")
    if (k < 22) return "tscan " key("6b") " 6c " below(5)
    if (k < 24) return "fnew " key("6e")
    if (k < 27) return "fwrite " key("6e") " " below(40) " " bytes(1 + below(30))
    if (k < 30) return "fread " key("6e") " " below(60) " " below(40)
    if (k < 31) return "fmove " key("6e") " " key("6e")
    if (k < 32) return "fdel " key("6e")
    if (k < 38) return "end"
    if (k < 39) return "abort"
    return below(3) ? "stat" : "compact"
}
# Mostly what goes on with the client's transaction, or begins one; ends that are refused are not kept count of.
function line_of(client,    op, tries) {
    do op = kind == "stores" ? op_on_stores() : op_on_blocks(); while (tries++ < 8 && (op ~ /^begin|^takeover/) == has[client] && below(9))
    if (op ~ /^begin|^takeover/) has[client] = 1
    if (op ~ /^end|^abort|^release/) has[client] = 0
    return client " " op
}
BEGIN {
    state = seed * 7919 + 17
    for (client = 1; client <= 4; client++) has[client] = 0
    for (line = 0; line < count; line++) print line_of(1 + below(4))
}
