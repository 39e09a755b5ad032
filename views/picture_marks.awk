# picture_marks.awk: how each thing looks in a picture, and the legend that shows the same. In order: the style,
# phases, marks, arrows, overtakings, the legend.
#
# Everything differs by shape or pattern, so that a print in black and white says the same; colour only helps.

BEGIN {
    # the old edition tries where the others wait, and frees the lock where they hand it on
    PHASES = split("inside,lost,handing on,freeing,waiting,trying,in service,on the way,at rest", phase_named, ",")
    split("inside lost handing handing waiting waiting service way rest", phase_class, " ")
    for (k = 1; k <= PHASES; k++) class_of[phase_named[k]] = phase_class[k]
    PASSES = split("handed,parked,claimed,taken back", pass_named, ",")
    pass_class["handed"] = "handed"; pass_class["parked"] = "parked"
    pass_class["claimed"] = "claimed"; pass_class["taken back"] = "back"
}

# ---- the style

# On paper the picture takes one page, which lies on its side where the picture is wide.
function style(wide) {
    return "<style>\n@page{size:" (wide ? "landscape" : "portrait") ";margin:10mm}\n" \
        "@media print{svg{width:100vw;height:100vh}}\n" \
        "text{font-family:sans-serif;font-size:11px;fill:#111}\n" \
        ".big{font-size:16px;font-weight:bold}.small{font-size:9.5px}.pale{fill:#888}.lane{font-weight:bold}\n" \
        ".flag{font-weight:bold;fill:#b00000}.within{font-size:8px;font-weight:bold;fill:#fff}\n" \
        "path{fill:none}.hover{fill:#fff;fill-opacity:0}\n" \
        ".grid{stroke:#ddd}.edge{stroke:#999}.tick{stroke:#444;stroke-width:1.2}.end{stroke:#111;stroke-width:4}\n" \
        ".rest{stroke:#999}.way{stroke:#333;stroke-width:2;stroke-dasharray:4 3}\n" \
        ".rules{fill:url(#rules);stroke:#777}.waiting{fill:#f0d27c;stroke:#444}.inside{fill:#17324d}\n" \
        ".service{fill:url(#dots);stroke:#333;stroke-dasharray:3 2}.handing{fill:url(#hatch);stroke:#333}\n" \
        ".cells path{stroke-width:0.5}\n" \
        ".join{fill:#fff;stroke:#111;stroke-width:1.6}.entry{fill:#111;stroke:#fff}.request{fill:#fff;stroke:#111}\n" \
        ".halo{stroke:#fff;stroke-width:5}.handed{stroke:#111;stroke-width:2}\n" \
        ".parked{stroke:#111;stroke-width:2;stroke-dasharray:5 3}\n" \
        ".claimed{stroke:#111;stroke-width:2.4;stroke-dasharray:0.1 4;stroke-linecap:round}\n" \
        ".back{stroke:#111;stroke-width:4.4}.core{stroke:#fff;stroke-width:1.8}\n" \
        ".head{fill:#111;stroke:#111}.open{fill:#fff;stroke:#111;stroke-width:1.4}\n" \
        ".blush{fill:#fdeaea}.band{stroke:#c00000;stroke-width:2.6}.broken{stroke-dasharray:7 4}\n" \
        ".over{stroke:#111;stroke-width:6}.overcore{stroke:#e00000;stroke-width:2.8}\n" \
        ".overentry{fill:#e00000;stroke:#111;stroke-width:2}\n" \
        ".thin{stroke:#c00000;stroke-width:1.6}.lead{stroke:#c00000;stroke-dasharray:2 2}\n" \
        (lost_line ? ".lost{fill:url(#bars);stroke:#111;stroke-width:1.6}\n" : "") "</style>\n<defs>\n" \
        pattern("hatch", 6, "<path d=\"M-1 1l2-2M0 6l6-6M5 7l2-2\" stroke=\"#24455f\" stroke-width=\"2\"/>") \
        pattern("dots", 5, "<circle cx=\"2.5\" cy=\"2.5\" r=\"0.8\" fill=\"#333\"/>") \
        pattern("rules", 4, "<path d=\"M0 2h4\" stroke=\"#777\" stroke-width=\"0.8\"/>") \
        (lost_line ? pattern("bars", 8, "<path d=\"M3 0v8\" stroke=\"#b00000\" stroke-width=\"4\"/>") : "") "</defs>"
}

function pattern(id, side, ink,    square) {
    square = " width=\"" side "\" height=\"" side "\""
    return "<pattern id=\"" id "\"" square " patternUnits=\"userSpaceOnUse\"><rect" square " fill=\"#fff\"/>" ink \
        "</pattern>\n"
}

# ---- phases

# A stretch of a lane whose middle is at y; high where the processor has the lock and does not hand it on.
function bar(which, x1, x2, y, said,    half) {
    half = which == "inside" || which == "lost" ? 8 : 5
    if (which == "at rest" || which == "on the way") shape(class_of[which], straight(x1, y, x2, y), said)
    else shape(class_of[which], box(x1, y - half, x2 - x1, 2 * half), said)
}

# A part of a cell of the overview.
function area(which, x, y, w, h) {
    if (which == "at rest") shape("rest", straight(x, y + h, x + w, y + h))
    else shape(which == "on the way" ? "rules" : class_of[which], box(x, y, w, h))
}

# ---- marks

function join_mark(x, y, said) {
    shape("join", circle(x, y, 6), said)
}

# `class` is entry, or overentry where it overtakes.
function entry_mark(x, y, half, class, said) {
    shape(class, diamond(x, y, half), said)
}

function request_mark(x, y, said) {
    shape("request", triangle(x, y - 5.5, 1, 3.5, 6), said)
}

function event_tick(x, y) {
    shape("tick", straight(x, y + 9, x, y + 12.5))
}

# ---- arrows

# The lock goes from the lane at y1 to that at y2. The head is filled where the giver acts, open where the taker does.
function arrow(how, x, y1, y2, said,    way, tip, neck) {
    way = y2 > y1 ? 1 : -1
    tip = y2 - 5 * way
    neck = tip - 6 * way
    open_group(said)
    shape("halo", straight(x, y1, x, tip))
    shape("head", circle(x, y1, 1.8))
    shape(pass_class[how], straight(x, y1, x, neck))
    if (how == "taken back") shape("core", straight(x, y1, x, neck))
    shape(how == "handed" || how == "parked" ? "head" : "open", triangle(x, tip, way, 4.2, 8))
    close_group()
}

# ---- overtakings

# From the overtaker's entry at y1 to the lane of the waiter at y2.
function over_mark(x, y1, y2, said,    way) {
    way = y2 > y1 ? 1 : -1
    open_group(said)
    shape("over", straight(x, y1, x, y2 + 1.5 * way) straight(x - 6, y2, x + 6, y2))
    shape("overcore", straight(x, y1, x, y2) straight(x - 4.5, y2, x + 4.5, y2))
    close_group()
}

# Around the lane of the waiter; open where the stretch goes on beyond what is shown.
function band(x1, x2, y, half, starts, ends, broken, said,    up, foot, data) {
    up = y - half
    foot = y + half
    if (starts && ends) data = box(x1, up, x2 - x1, 2 * half)
    else if (starts) data = straight(x2, up, x1, up) "V" num(foot) "H" num(x2)
    else if (ends) data = straight(x1, up, x2, up) "V" num(foot) "H" num(x1)
    else data = straight(x1, up, x2, up) straight(x1, foot, x2, foot)
    shape(broken ? "band broken" : "band", data, said)
}

# ---- the lost lock

# A cross, where the second read finds no one.
function lost_mark(x, y, said,    cross) {
    cross = straight(x - 7, y - 7, x + 7, y + 7) straight(x - 7, y + 7, x + 7, y - 7)
    open_group(said)
    shape("over", cross)
    shape("overcore", cross)
    close_group()
}

# ---- the legend

# Lays out samples with their words from left to right; answers the y below them.
function legend(left, right, y, cells) {
    legend_left = legend_x = left
    legend_right = right
    legend_y = y
    legend_phases(cells ? "area" : "bar")
    if (!cells) legend_marks()
    if (lost_line) sample("losing", "", "loses the lock", 22)
    sample("overentry", "", "enters and overtakes" (cells ? " (a number: so many times in the cell)" : ""), 18)
    sample("frame", "", "is passed over, from its " start_noun[edition] " on", 32)
    sample("broken", "", "the same, but it had taken an interrupt", 32)
    return legend_y + 18
}

function legend_phases(kind,    k, many, order) {
    many = split(queued[edition] ? "at rest,on the way,waiting,inside,in service,handing on" : \
        "at rest,trying,inside,in service,freeing", order, ",")
    # only drawn has it, and few of its logs
    if (lost_line) order[++many] = "lost"
    for (k = 1; k <= many; k++) sample(kind, order[k], order[k], 34)
    legend_break()
}

# Without a queue the lock goes from nobody to somebody: whoever frees it gives it to no one.
function legend_marks(    k) {
    sample("join", "", start_verb[edition], 16)
    sample("entry", "", "enters", 16)
    sample("both", "", start_verb[edition] " and enters in one step", 16)
    sample("request", "", "interrupt request", 14)
    sample("tick", "", "an event of this processor", 10)
    legend_break()
    if (!queued[edition]) return
    for (k = 1; k <= PASSES; k++) sample("arrow", pass_named[k], "the lock is " pass_named[k], 14)
    legend_break()
}

function legend_break() {
    legend_x = legend_left
    legend_y += 26
}

function sample(kind, which, words, wide,    x, y) {
    if (legend_x > legend_left && legend_x + wide + 6 + text_width(words, 11) > legend_right) legend_break()
    x = legend_x
    y = legend_y
    if (kind == "bar") bar(which, x, x + wide, y)
    if (kind == "area") area(which, x, y - 8, wide, 16)
    if (kind == "join" || kind == "both") join_mark(x + 7, y)
    if (kind == "entry" || kind == "both") entry_mark(x + 7, y, 5.5, "entry")
    if (kind == "overentry") entry_mark(x + 9, y, 8.5, "overentry")
    if (kind == "losing") lost_mark(x + 11, y)
    if (kind == "request") request_mark(x + 6, y + 8)
    if (kind == "tick") event_tick(x + 4, y - 10)
    if (kind == "arrow") arrow(which, x + 6, y - 13, y + 16)
    if (kind == "frame" || kind == "broken") {
        shape("blush", box(x + 1, y - 8, wide - 2, 16))
        band(x + 1, x + wide - 1, y, 8, 1, 1, kind == "broken")
    }
    write_text("", x + wide + 6, y + 4, "start", words)
    legend_x = x + wide + 6 + text_width(words, 11) + 18
}
