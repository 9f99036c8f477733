# Draws the crates of crates.txt as an SVG: a panel for each group, and in it each crate below those that it uses directly.
# A crate of another group is a rounded name above the one that uses it. docs/picture runs this.

BEGIN {
    wide = 900 # of the picture
    high = 22; gap = 16 # of a box, and between two boxes
    edge = 14; head = 30 # of a panel: its margin, and the room for its title
    colours = split("#dbeafe #d6f5e0 #fdf3c4 #fbe0e0 #e8e2fb #e7e7e4", light)
    split("#4a7fc1 #3f9463 #b08c1e #c26a6a #7d68bd #7c7c74", dark)
    legend = "An arrow goes to a crate that is used directly. A rounded name is a crate of another group, in its colour."
}

# The last comment before a crate is the title of its group. The direct dependencies of a crate end where two spaces stand.
/^#/ { heading = substr($0, 3) }
/^[^#]*:/ {
    if (heading != "") { title[++groups] = heading; heading = "" }
    name = uses = $0
    sub(/[ :].*/, "", name) # also of 'NAME staticlib:'
    sub(/^[^:]*: */, "", uses); sub(/  .*/, "", uses)
    crate[++crates] = name; group[name] = groups; direct[name] = uses
}

END {
    for (g = 1; g <= groups; g++) panel(g)
    arrange()
    picture()
}

# ---- A panel: its nodes, their rows, the order in each row, and where each node stands ----

# A node is a crate of the group, NAME; a crate of another one, NAME^USER; or a point where a line passes a row, NODE@ROW.
function label(node) { sub(/[\^@].*/, "", node); return node }
function is_point(node) { return node ~ /@/ }
function is_other(node) { return node ~ /\^/ }
function width(node) { return is_point(node) ? 2 : is_other(node) ? 14 + 6.2 * length(label(node)) : 16 + 6.7 * length(node) }

# Works out one panel, and draws it.
function panel(g,    turn, r) {
    nodes = uses_here = links = bottom = 0
    split("", row); split("", at); split("", filled); split("", x)
    collect(g)
    find_rows()
    link_rows()
    fewest = -1
    for (turn = 1; turn <= 24; turn++) { order(1, turn); order(-1, turn) }
    for (r = 0; r <= bottom; r++) sort_row(r, best, 0)
    for (turn = 1; turn <= 400; turn++) for (r = 0; r <= bottom; r++) settle(r)
    draw(g)
}

# The crates of a group, each after those that it uses. The kit's libraries are left out.
function collect(g,    i, j, m, n, used) {
    for (i = 1; i <= crates; i++) if (group[crate[i]] == g) {
        n = crate[i]
        m = split(direct[n], used, " ")
        for (j = 1; j <= m; j++) if (used[j] in group) {
            lower[++uses_here] = n; upper[uses_here] = used[j]
            if (group[used[j]] != g) { upper[uses_here] = used[j] "^" n; node[++nodes] = used[j] "^" n }
        }
        node[++nodes] = n
    }
}

# A node stands a row below the lowest one that it uses; one that uses nothing stands a row above the first that uses it.
function find_rows(    i, k, n, uses_some, first) {
    for (i = 1; i <= nodes; i++) {
        n = node[i]; row[n] = 0
        for (k = 1; k <= uses_here; k++) if (lower[k] == n) {
            uses_some[n] = 1
            if (row[n] <= row[upper[k]]) row[n] = row[upper[k]] + 1
        }
        if (bottom < row[n]) bottom = row[n]
    }
    for (k = 1; k <= uses_here; k++) {
        n = upper[k]
        if (!(n in uses_some) && (!(n in first) || row[lower[k]] < first[n])) first[n] = row[lower[k]]
    }
    for (n in first) row[n] = first[n] - 1
}

# Puts a node at the end of a row.
function put(n, r) { row[n] = r; at[n] = ++filled[r]; in_row[r, at[n]] = n }

function link(a, b) { from[++links] = a; to[links] = b }

# Links go from a row to the next. All who use a node from further below share one line down, which has a point in each row between.
function link_rows(    i, k, r, n, point) {
    for (i = 1; i <= nodes; i++) put(node[i], row[node[i]])
    for (k = 1; k <= uses_here; k++) {
        n = upper[k]
        for (r = row[n] + 1; r < row[lower[k]]; r++) {
            point = upper[k] "@" r
            if (!(point in row)) { put(point, r); link(n, point) }
            n = point
        }
        link(n, lower[k])
    }
}

# Orders each row by the mean place of what its nodes are linked to, in the row above going down, in the row below going up. Equal ones
# change places every other turn. The order with the fewest crossings is kept.
function order(way, turn,    r, i, k, n, sum, count, key) {
    for (r = (way > 0 ? 1 : bottom - 1); r >= 0 && r <= bottom; r += way) {
        for (i = 1; i <= filled[r]; i++) {
            n = in_row[r, i]; sum = count = 0
            for (k = 1; k <= links; k++) {
                if (way > 0 && to[k] == n) { sum += at[from[k]]; count += filled[r - 1] + 1 }
                if (way < 0 && from[k] == n) { sum += at[to[k]]; count += filled[r + 1] + 1 }
            }
            key[n] = count ? sum / count : at[n] / (filled[r] + 1)
        }
        sort_row(r, key, turn % 2)
    }
    k = crossings()
    if (fewest < 0 || k < fewest) { fewest = k; for (n in at) best[n] = at[n] }
}

# Sorts a row by a key; 'swap' tells whether equal ones change places.
function sort_row(r, key, swap,    i, j, n, before) {
    for (i = 2; i <= filled[r]; i++) {
        n = in_row[r, i]
        for (j = i; j > 1; j--) {
            before = in_row[r, j - 1]
            if (key[before] < key[n] || key[before] == key[n] && !swap) break
            in_row[r, j] = before
        }
        in_row[r, j] = n
    }
    for (i = 1; i <= filled[r]; i++) at[in_row[r, i]] = i
}

# How many pairs of links cross.
function crossings(    a, b, count) {
    for (a = 1; a <= links; a++) for (b = 1; b < a; b++)
        if (row[to[a]] == row[to[b]] && (at[from[a]] - at[from[b]]) * (at[to[a]] - at[to[b]]) < 0) count++
    return count + 0
}

# Puts each node of a row at the mean of what it is linked to, drawn a little to the middle of the panel, as far as its neighbours allow:
# nodes that would overlap are joined to a block, which stands at the mean of their places.
function settle(r,    i, k, n, blocks, off, sum, count, size, place) {
    for (i = 1; i <= filled[r]; i++) {
        n = in_row[r, i]; sum = 0; count = 0.1
        off[i] = i == 1 ? 0 : off[i - 1] + (width(in_row[r, i - 1]) + width(n)) / 2 + gap
        for (k = 1; k <= links; k++) {
            if (to[k] == n) { sum += x[from[k]]; count++ }
            if (from[k] == n) { sum += x[to[k]]; count++ }
        }
        place[++blocks] = sum / count - off[i]; size[blocks] = 1
        for (; blocks > 1 && place[blocks - 1] > place[blocks]; blocks--) {
            k = size[blocks - 1] + size[blocks]
            place[blocks - 1] = (place[blocks - 1] * size[blocks - 1] + place[blocks] * size[blocks]) / k
            size[blocks - 1] = k
        }
    }
    i = 0
    for (k = 1; k <= blocks; k++) for (; size[k] > 0; size[k]--) { i++; x[in_row[r, i]] = place[k] + off[i] }
}

# ---- The picture ----

# The boxes and lines of a panel as SVG, from its own middle and its first row; and how much room they take.
function draw(g,    i, k, n, left, right) {
    left = right = 0
    for (i = 1; i <= bottom; i++) y[i] = y[i - 1] + high + gap + int(longest(i) / 12)
    for (n in x) {
        if (left > x[n] - width(n) / 2) left = x[n] - width(n) / 2
        if (right < x[n] + width(n) / 2) right = x[n] + width(n) / 2
    }
    for (k = 1; k <= links; k++) curves[g] = curves[g] curve(from[k], to[k], (left + right) / 2)
    for (i = 1; i <= nodes; i++) boxes[g] = boxes[g] box(node[i], (left + right) / 2)
    across[g] = right - left + 2 * edge
    down[g] = y[bottom] + high + head + edge
}

# How far a line that ends in a row goes to a side. Rows stand further apart for it, lest it be flat.
function longest(r,    k, far, d) {
    for (k = 1; k <= links; k++) if (row[to[k]] == r) {
        d = x[from[k]] - x[to[k]]
        if (d < 0) d = -d
        if (far < d) far = d
    }
    return far
}

# The line from a node up to one that it uses, where it ends in an arrow, or to a point of such a line, which passes its row.
function curve(used, user, middle,    a, b, low, upper_end, bend, end) {
    a = x[user] - middle; low = y[row[user]]
    b = x[used] - middle; upper_end = y[row[used]] + high; bend = int((low - upper_end) / 2)
    end = is_point(used) ? " v-" high "\"" : "\" marker-end=\"url(#tip)\""
    return sprintf("<path d=\"M%.1f,%d C%.1f,%d %.1f,%d %.1f,%d%s/>\n", a, low, a, low - bend, b, upper_end + bend, b, upper_end, end)
}

# The box of a crate, with its name; of a crate of another group, a lower one with round ends.
function box(n, middle,    c, slim, form) {
    c = colour(group[label(n)]); slim = is_other(n) ? 2 : 0
    form = "<rect x=\"%.1f\" y=\"%d\" width=\"%.1f\" height=\"%d\" rx=\"%d\" fill=\"%s\" stroke=\"%s\"/>"
    form = sprintf(form, x[n] - middle - width(n) / 2, y[row[n]] + slim, width(n), high - 2 * slim, slim ? 9 : 3, light[c], dark[c])
    return form text(x[n] - middle, y[row[n]] + 15, slim ? 11 : 12, "", label(n)) "\n"
}

function text(left, down, size, more, words) {
    return sprintf("<text x=\"%.1f\" y=\"%d\" font-size=\"%d\"%s>%s</text>", left, down, size, more, words)
}

function colour(g) { return (g - 1) % colours + 1 }

# Panels stand side by side as long as they fit, and share the room that is left.
function arrange(    g, i, first, used, tall) {
    total = used = gap; first = 1
    for (g = 1; g <= groups + 1; g++) {
        if (g > groups || used + across[g] + gap > wide) {
            for (i = first; i < g; i++) { across[i] += (wide - used) / (g - first); down[i] = tall; top[i] = total }
            total += tall + gap; first = g; used = gap; tall = 0
        }
        used += across[g] + gap
        if (tall < down[g]) tall = down[g]
    }
    total += 24
}

function picture(    g, left) {
    printf "<svg xmlns=\"http://www.w3.org/2000/svg\" viewBox=\"0 0 %d %d\" width=\"%d\" height=\"%d\"", wide, total, wide, total
    print " font-family=\"Helvetica, Arial, sans-serif\">"
    print "<title>The crates in groups, each below those that it uses directly</title>"
    print "<marker id=\"tip\" markerWidth=\"7\" markerHeight=\"7\" refX=\"6\" refY=\"3\" orient=\"auto\">"
    print "<path d=\"M0,0 L6,3 L0,6 z\" fill=\"#555\"/></marker>"
    print "<rect width=\"" wide "\" height=\"" total "\" fill=\"#fff\"/>"
    for (g = 1; g <= groups; g++) {
        left = top[g] == top[g - 1] ? left + across[g - 1] + gap : gap
        framed(g, left)
    }
    print text(gap, total - 14, 12, " fill=\"#555\"", legend)
    print "</svg>"
}

# A panel in its frame, with its title.
function framed(g, left,    c) {
    c = dark[colour(g)]
    printf "<rect x=\"%.1f\" y=\"%d\" width=\"%.1f\" height=\"%d\" rx=\"6\"", left, top[g], across[g], down[g]
    print " fill=\"none\" stroke=\"" c "\"/>"
    print text(left + edge, top[g] + 20, 14, " font-weight=\"bold\" fill=\"" c "\"", title[g])
    printf "<g transform=\"translate(%.1f,%d)\">\n", left + across[g] / 2, top[g] + head
    print "<g fill=\"none\" stroke=\"#777\">\n" curves[g] "</g>"
    print "<g fill=\"#222\" text-anchor=\"middle\">\n" boxes[g] "</g>\n</g>"
}
