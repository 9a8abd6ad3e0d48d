# Gathers the rows of a page that picture.awk draws: the words of each call and comment, its marks, and what changes in the lanes of processes. Part of
# picture.awk.

# ---- text of a page

# A text with the characters that mean something in a page written otherwise.
function html(text) {
	gsub(/&/, "\\&amp;", text)
	gsub(/</, "\\&lt;", text)
	gsub(/>/, "\\&gt;", text)
	gsub(/"/, "\\&quot;", text)
	gsub(/[\001-\010\013-\037\177]/, "?", text)
	return text
}

# A text cut to so many characters.
function cut(text, most) { return length(text) > most ? substr(text, 1, most) " ..." : text }

# ---- rows, as they come

# A new row: its class and its words, as a piece of the page.
function add_row(class, text) {
	rows++
	row_class[rows] = class
	row_words[rows] = text
	row_from[rows] = row_to[rows] = ""
}

# A line of a comment; lines that follow each other are one text. What stands before the first call is the introduction.
function add_comment(text) {
	sub(/^#+ */, "", text)
	if (call_number == 0) { introduction = introduction (introduction == "" ? "" : " ") text; return }
	if (rows && row_class[rows] == "note" && !apart) row_words[rows] = row_words[rows] " " html(text)
	else add_row("note", html(text))
	apart = 0
}

# The verdict of a call, marked where it is a refusal.
function verdict() {
	if (outcome == "unclear") return "<span class=\"no\">&#10007; " html(sentence) "</span>"
	if (reply == "") return ""
	if (outcome == "refused") return " <span class=\"no\">&#10007; " html(reply) "</span>"
	return " &#8594; " html(reply)
}

# What a look at a process shows beside its lane: where it lies, and its breakpoints.
function look_at_process(text, i) {
	if (!is["there"]) return ""
	text = bytes_text(is["size"]) " from byte " is["begin"] " of memory on, SP " hex_word(is["register", 6]) ", PC " hex_word(is["register", 7])
	for (i = 1; i <= is["breakpoints"]; i++) text = text "\nbreakpoint at " hex_word(is["address", i]) " of " host_name(is["owner", i]) \
		", count " is["count", i] (is["lifted", i] == 1 ? ", lifted" : "")
	if (is["owed"] != "-") text = text "\nan answer to " is["owed"] " is owed"
	if (is["go"] != "-") text = text "\na Go of ID " is["id"] " waits, ticks " is["ticks"]
	return text
}

# What stands below the sentence of a call: the bytes of a look at memory, or the other lines that tell it.
function below_sentence(text, i) {
	if (outcome == "unclear") return cut(line, 100)
	if (word == "memory" || word == "whole") return cut(came, 191)
	if (word == "process") return look_at_process()
	for (i = 2; i <= tellings; i++) {
		sub(/^ +/, "", told[i])
		text = text (i > 2 ? "\n" : "") told[i]
	}
	return text
}

# The class of a row.
function class_of_call() {
	if (word == "start" && outcome == "granted") return "start"
	if (word == "tick") return "tick"
	return outcome == "asked" ? "look" : outcome
}

# A call. Ticks that change no lane are one row.
function add_call(below) {
	calls++
	if (outcome == "refused") refusals++
	below = below_sentence()
	if (word == "tick" && rows && row_class[rows] == "tick" && !lanes_move()) {
		row_to[rows] = call_number
		row_words[rows] = "tick, " row_to[rows] - row_from[rows] + 1 " times" verdict()
		return
	}
	add_row(class_of_call(), (outcome == "unclear" ? "" : html(sentence)) verdict() (below == "" ? "" : "<span class=\"code\">" html(below) "</span>"))
	row_from[rows] = row_to[rows] = call_number
	row_line[rows] = "line " line_number ": " cut(line, 120)
	mark_call()
	mark_lanes()
}

# ---- marks: a line or sign of a row, as host:process:sign:number, where host or process may be -1

# One more mark of the row. A process has a lane if it is there at some time and something is about it.
function add_mark(host, process, sign) {
	if (host > 0) host_occurs[host] = 1
	if (process >= 0 && process < 8) process_named[process] = 1
	row_marks[rows] = row_marks[rows] " " host ":" process ":" sign ":" number
}

# The marks of a call.
function mark_call() {
	if (word == "report") {
		if (outcome == "refused") add_mark(-1, event_process, "refused")
		else if (told_host < 0 && !told_line) add_mark(-1, event_process, "report")
		if (told_host > 0) add_mark(told_host, event_process, "notice")
		if (told_line && told_host != 253) add_mark(253, event_process, "notice")
	}
	else if (word == "store" || word == "tick") add_mark(-1, event_process, word)
	else if (word == "why") add_mark(event_host, event_process, "why")
	else if (outcome == "asked") add_mark(-1, event_process, "look")
	else if (outcome != "unclear") add_mark(event_host, event_process, outcome)
}

# ---- lanes: for each process and each of its three parts, the rows in which what is there changes

# What stands in a part of a lane: who debugs, who watches, or the run state, where 6 is that the process is not there.
function lane_value(part) {
	if (part == "run") return is["there"] ? is["run"] + 0 : 6
	return is["there"] ? is[part == "debug" ? "host" : "watcher"] + 0 : 0
}

# Whether the call changes a lane.
function lanes_move(p, k) {
	for (p = 0; p < 8; p++) {
		if (was[p] == now[p]) continue
		know(now[p])
		for (k = 1; k <= 3; k++) if (lane_value(part_names[k]) != lane_now[p, k]) return 1
	}
	return 0
}

# Notes what changes in the lanes with this row. What changes by a start does not make a process one that something happens to.
function mark_lanes(p, k, value) {
	for (p = 0; p < 8; p++) {
		if (was[p] == now[p]) continue
		know(now[p])
		if (is["there"]) process_started[p] = 1
		for (k = 1; k <= 3; k++) {
			value = lane_value(part_names[k])
			if (value == lane_now[p, k]) continue
			if (word != "start") process_named[p] = 1
			lane_now[p, k] = value
			lane_row[p, k, ++lane_changes[p, k]] = rows
			lane_at[p, k, lane_changes[p, k]] = value
		}
	}
}

# Before the first row nothing is there.
function begin_lanes(p, k) {
	split("debug,watch,run", part_names, ",")
	split("debugged by,watched by,run state", part_heads, ",")
	for (p = 0; p < 8; p++) for (k = 1; k <= 3; k++) {
		lane_now[p, k] = k == 3 ? 6 : 0
		lane_row[p, k, 1] = 0
		lane_at[p, k, 1] = lane_now[p, k]
		lane_changes[p, k] = 1
	}
}
