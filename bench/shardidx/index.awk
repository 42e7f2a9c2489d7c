# Prints a shard's index: FILES stored files, and SNAPS snapshots that have each of them.
# Ids rise, and a snapshot's list is in byte order of physical names, which is another order.
function id_text(number,    text, i, low) {
    low = number % 4
    number = (number - low) / 4
    text = substr(digits, low * 16 + 1, 1)
    for (i = 0; i < 10; i++) {
        text = substr(digits, number % 64 + 1, 1) text
        number = (number - number % 64) / 64
    }
    return "AAAAAAAAAAE" text
}
function digest(k,    text, i) {
    text = ""
    for (i = 1; i <= 8; i++) text = text sprintf("%08x", (k * 65537 + i * 40503) * 40503 % 4294967296)
    return text
}
BEGIN {
    digits = "ABCDEFGHIJKLMNOPQRSTUVWXYZabcdefghijklmnopqrstuvwxyz0123456789-_"
    printf "{\"files\":["
    for (k = 0; k < FILES; k++) {
        # 7,919 is prime and no divisor of FILES, so the places are all different.
        place = (k * 7919 + 13) % FILES
        at[place] = k
        name = sprintf("_%x_Lucene90_%d.dvd", place + 1048576, place % 7)
        printf "%s{\"length\":%d,\"name\":\"__%s\",\"part_size\":16777216,\"physical_name\":\"%s\",\"sha256\":\"%s\"}", (k ? "," : ""), (k * 65537) % 1000000007, id_text(SNAPS + k), name, digest(k)
    }
    printf "],\"snapshots\":["
    for (s = 0; s < SNAPS; s++) {
        printf "%s{\"files\":[", (s ? "," : "")
        for (place = 0; place < FILES; place++) printf "%s\"__%s\"", (place ? "," : ""), id_text(SNAPS + at[place])
        printf "],\"uuid\":\"%s\"}", id_text(s)
    }
    printf "]}"
}
