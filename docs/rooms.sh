#!/bin/sh
# Draws the rooms from crates.txt, with the words of the table in docs/ARCHITECTURE.md: sh docs/rooms.sh >docs/rooms.svg
# One row a level. An arrow leads to what a room stands on, unless rooms between say it already. The `_run` programs are left out.
set -eu
cd "$(dirname "$0")/.."
awk '
    # the words, from the table
    FNR == NR && /^\| Room \|/ { table = 1; next }
    FNR == NR && !/^\|/ { table = 0 }
    FNR == NR { if (table && split($0, cell, / *[|] */) > 3) { gsub(/`/, "", cell[2]); word[cell[2]] = cell[3] }; next }
    # the rooms, lowest first
    /^#/ || NF == 0 || $1 ~ /_run:$/ { next }
    { add_room() }

    # a room of the program stands on `desk`
    function add_room(    i) {
        rooms++; room[rooms] = $1; sub(/:$/, "", room[rooms]); number[room[rooms]] = rooms; level[rooms] = 0
        if (length(word[room[rooms]]) > longest) longest = length(word[room[rooms]])
        if (room[rooms] == "desk") program[rooms] = 1
        for (i = 2; i <= NF; i++)
            if ($i in number) { direct[rooms, number[$i]] = 1; if ($i == "desk") program[rooms] = 1 }
    }

    # ---- arrows and levels

    # what s stands on is below r, too
    function join(r, s,    t) {
        below[r, s] = 1
        for (t = 1; t < s; t++)
            if ((s, t) in below) below[r, t] = 1
    }
    function arrow(r, s) {
        arrows++; from[arrows] = r; to[arrows] = s; on[r] = on[r] ", " room[s]
        if (level[r] <= level[s]) level[r] = level[s] + 1
    }
    # whatever stands between r and s has a higher number than s, so it has been met before s is
    function stand(r,    s) {
        for (s = r - 1; s > 0; s--)
            if ((r, s) in direct) {
                if (!((r, s) in below)) arrow(r, s)
                join(r, s)
            }
    }
    # a room with more arrows above than below it stands right under the lowest that needs it: so the arrows are shorter
    function lift(r,    a, above, under, lowest) {
        lowest = rooms
        for (a = 1; a <= arrows; a++) {
            if (from[a] == r) under++
            if (to[a] == r) { above++; if (level[from[a]] < lowest) lowest = level[from[a]] }
        }
        if (above > under) level[r] = lowest - 1
    }

    # ---- what stands in the rows: rooms, and bends where an arrow passes a row; arrows to one room share their bends

    function put(item, l) {
        level[item] = l; size[l]++; row[l, size[l]] = item; place[item] = size[l]
        if (l > top) top = l
    }
    function bend(s, l) {
        if (!((s, l) in bent)) { items++; bent[s, l] = items; put(items, l) }
        return bent[s, l]
    }
    # links lead from one row to the next; those of one gap are counted by the row above it
    function link(u, d,    l) {
        if ((u, d) in linked) return
        linked[u, d] = 1; l = level[u]; links[l]++; upper[l, links[l]] = u; lower[l, links[l]] = d
    }
    function chain(a,    l, u, d) {
        u = from[a]
        for (l = level[u] - 1; l >= level[to[a]]; l--) {
            d = l == level[to[a]] ? to[a] : bend(to[a], l)
            link(u, d)
            u = d
        }
    }

    # ---- the order within the rows: few crossings, then short links; the rooms of the program to the right

    function positive(d) { return d < 0 ? -d : d }
    function off(item) { return place[item] - (size[level[item]] + 1) / 2 }
    function crossings(l, i,    j, n) {
        for (j = 1; j < i; j++)
            if ((place[upper[l, i]] - place[upper[l, j]]) * (place[lower[l, i]] - place[lower[l, j]]) < 0) n++
        return n
    }
    function gap_cost(l,    i, n) {
        for (i = 1; i <= links[l]; i++)
            n += 100 * crossings(l, i) + positive(off(upper[l, i]) - off(lower[l, i]))
        return n
    }
    function mixed(l,    p, n, seen) {
        for (p = 1; p <= size[l]; p++)
            if (row[l, p] in program) seen = 1
            else if (row[l, p] <= rooms) n += seen
        return n
    }
    function cost(l) { return gap_cost(l) + gap_cost(l + 1) + 10000 * mixed(l) }
    function exchange(l, p,    item) {
        item = row[l, p]; row[l, p] = row[l, p + 1]; row[l, p + 1] = item
        place[item] = p + 1; place[row[l, p]] = p
    }
    function carry(l, p, q) {
        while (p != q)
            if (p < q) { exchange(l, p); p++ }
            else { p--; exchange(l, p) }
    }
    # the item at p goes where it costs least
    function settle(l, p,    q, here, least, best) {
        least = cost(l); best = p; here = p
        for (q = 1; q <= size[l]; q++) {
            carry(l, here, q); here = q
            if (cost(l) < least - 0.001) { least = cost(l); best = q; moved = 1 }
        }
        carry(l, here, best)
    }
    function order_row(l,    p) { for (p = 1; p <= size[l]; p++) settle(l, p) }
    function order_rows(    l) { moved = 0; for (l = -top; l <= top; l++) order_row(positive(l)) }

    # ---- where each stands: as near as can be to the middle of what it is linked to, bends above all, so that long arrows are straight

    function apart(a, b) { return a <= rooms && b <= rooms ? wide + 22 : a <= rooms || b <= rooms ? wide / 2 + 20 : 24 }
    function weight(a, b) { return a > rooms && b > rooms ? 30 : a > rooms || b > rooms ? 2 : 1 }
    function pull(l, item,    i, other, w) {
        for (i = 1; i <= links[l]; i++) {
            other = upper[l, i] == item ? lower[l, i] : lower[l, i] == item ? upper[l, i] : 0
            if (other) { w = weight(item, other); pulled += w * x[other]; weights += w }
        }
    }
    function wanted(item) {
        pulled = x[item] / 10; weights = 1 / 10
        pull(level[item], item); pull(level[item] + 1, item)
        return pulled / weights
    }
    # items that would stand too near each other make a block, which stands in the middle of what they want
    function merge() {
        for (; blocks > 1 && sum[blocks - 1] / heavy[blocks - 1] > sum[blocks] / heavy[blocks]; blocks--) {
            sum[blocks - 1] += sum[blocks]; heavy[blocks - 1] += heavy[blocks]; many[blocks - 1] += many[blocks]
        }
    }
    function block(want, w) { blocks++; sum[blocks] = want * w; heavy[blocks] = w; many[blocks] = 1; merge() }
    function lay(l,    p, b, left) {
        for (p = 1; p <= size[l]; p++) {
            if (left == 0) { b++; left = many[b] }
            x[row[l, p]] = sum[b] / heavy[b] + offset[p]; left--
        }
    }
    function spread(l,    p, at, want) {
        blocks = 0
        for (p = 1; p <= size[l]; p++) {
            if (p > 1) at += apart(row[l, p - 1], row[l, p])
            offset[p] = at; want = wanted(row[l, p])
            block(want - at, weights)
        }
        lay(l)
    }
    function spread_rows(    l) { for (l = -top; l <= top; l++) spread(positive(l)) }
    # from the left edge on, in whole numbers
    function bounds(    i) {
        least = most = x[1]
        for (i = 2; i <= items; i++)
            if (x[i] < least) least = x[i]
            else if (x[i] > most) most = x[i]
        width = int(most - least + wide + 40)
    }
    function from_the_edge(    i) { for (i = 1; i <= items; i++) x[i] = int(x[i] - least + wide / 2 + 20.5) }

    # ---- the picture

    function head(l) { return 24 + (top - l) * 114 }
    function foot(l) { return head(l) + tall }
    function escaped(s) { gsub(/&/, "\\&amp;", s); gsub(/</, "\\&lt;", s); return s }
    # links leave and reach a room side by side, in the order of their other ends
    function leaves(l, i,    j, before, all) {
        for (j = 1; j <= links[l]; j++)
            if (upper[l, j] == upper[l, i]) { all++; if (x[lower[l, j]] < x[lower[l, i]]) before++ }
        return x[upper[l, i]] + (upper[l, i] <= rooms) * (before - (all - 1) / 2) * 26
    }
    function reaches(l, i,    j, before, all) {
        for (j = 1; j <= links[l]; j++)
            if (lower[l, j] == lower[l, i]) { all++; if (x[upper[l, j]] < x[upper[l, i]]) before++ }
        return x[lower[l, i]] + (lower[l, i] <= rooms) * (before - (all - 1) / 2) * 18
    }
    # down past the row from a bend, then to the next row
    function draw_link(x1, y1, x2, y2, from_bend, to_bend) {
        printf "<path d=\"M%d %d", x1, y1
        if (from_bend) { printf "v%d", tall; y1 += tall }
        printf "C%d %d %d %d %d %d\"%s/>\n", x1, y1 + 34, x2, y2 - 34, x2, y2, to_bend ? "" : " marker-end=\"url(#on)\""
    }
    function draw_gap(l,    i, from_bend, to_bend) {
        for (i = 1; i <= links[l]; i++) {
            from_bend = upper[l, i] > rooms; to_bend = lower[l, i] > rooms
            draw_link(leaves(l, i), from_bend ? head(l) : foot(l), reaches(l, i), head(l - 1) - (to_bend ? 0 : 8), from_bend, to_bend)
        }
    }
    function box(x, y, w, h, of_program) {
        printf "<rect x=\"%d\" y=\"%d\" width=\"%d\" height=\"%d\" rx=\"7\" %s/>", x, y, w, h, of_program ? "fill=\"#fdf0d9\" stroke=\"#b07a1e\"" : "fill=\"#e3eefa\" stroke=\"#3d6da3\""
    }
    function draw_room(r,    y) {
        y = head(level[r])
        printf "<g><title>%s%s</title>", room[r], on[r] == "" ? "" : " stands on " substr(on[r], 3)
        box(x[r] - wide / 2, y, wide, tall, r in program)
        printf "<text x=\"%d\" y=\"%d\" font-size=\"16\" font-weight=\"bold\">%s</text>", x[r], y + 22, room[r]
        printf "<text x=\"%d\" y=\"%d\">%s</text></g>\n", x[r], y + 41, escaped(word[room[r]])
    }
    function draw_row(l,    p) { for (p = 1; p <= size[l]; p++) if (row[l, p] <= rooms) draw_room(row[l, p]) }
    function legend(y) {
        print "<g text-anchor=\"start\">"
        box(20, y, 24, 16, 0); print "<text x=\"52\" y=\"" y + 13 "\">a library</text>"
        box(140, y, 24, 16, 1); print "<text x=\"172\" y=\"" y + 13 "\">a room of the program</text>"
        print "<path d=\"M340 " y + 8 "h24\" fill=\"none\" stroke=\"#777\" stroke-width=\"1.4\" marker-end=\"url(#on)\"/><text x=\"380\" y=\"" y + 13 "\">stands on</text></g>"
    }
    function begin(height) {
        printf "<svg xmlns=\"http://www.w3.org/2000/svg\" width=\"%d\" height=\"%d\" viewBox=\"0 0 %d %d\" role=\"img\">\n", width, height, width, height
        print "<title>The rooms of Dagskimra, each on those that it stands on</title>"
        print "<defs><marker id=\"on\" viewBox=\"0 0 8 8\" refX=\"1\" refY=\"4\" markerWidth=\"8\" markerHeight=\"8\" markerUnits=\"userSpaceOnUse\" orient=\"auto\"><path d=\"M0 0L8 4L0 8Z\" fill=\"#777\"/></marker></defs>"
        printf "<rect width=\"%d\" height=\"%d\" fill=\"#fff\"/>\n", width, height
    }

    END {
        wide = 2 * int(longest * 3.6 + 12); tall = 54
        for (r = 1; r <= rooms; r++) stand(r)
        for (r = rooms; r > 0; r--) lift(r)
        items = rooms
        for (r = 1; r <= rooms; r++) put(r, level[r])
        for (a = 1; a <= arrows; a++) chain(a)
        for (i = moved = 1; moved && i < 20; i++) order_rows()
        for (i = 1; i <= items; i++) x[i] = off(i) * wide
        for (i = 1; i <= 200; i++) spread_rows()
        bounds(); from_the_edge()
        begin(foot(0) + 70)
        print "<g fill=\"none\" stroke=\"#777\" stroke-width=\"1.4\">"
        for (l = top; l > 0; l--) draw_gap(l)
        print "</g>\n<g font-family=\"Helvetica, Arial, sans-serif\" font-size=\"13\" text-anchor=\"middle\" fill=\"#222\">"
        for (l = 0; l <= top; l++) draw_row(l)
        legend(foot(0) + 36)
        print "</g>\n</svg>"
    }' docs/ARCHITECTURE.md crates.txt
