# Tells looks at memory and at processes in words, and what the machine stores. Part of words.awk.

# A look, which nothing is changed by.
function tell_look() {
	hear_desk()
	outcome = "asked"
	if (word == "memory") tell_memory()
	else if (word == "whole") tell_whole()
	else tell_process()
}

# ---- memory

# The addresses of planted breakpoints in a part of a process, as a list.
function planted_in(address, count, text, i) {
	for (i = 1; i <= is["breakpoints"]; i++) {
		if (is["lifted", i] == 1 || is["address", i] + 1 < address || is["address", i] >= address + count) continue
		text = text (text == "" ? "" : ", ") hex_word(is["address", i])
	}
	return text
}

# A byte that the machine stores.
function tell_store() {
	hear_desk()
	event_process = argument[2]
	say_both("the machine stores " argument[4] sprintf(" (0x%02x)", argument[4]) " at " hex_word(argument[3]) " of process " argument[2], "")
}

# A part of a process, as it stands in memory.
function tell_memory(planted) {
	event_process = argument[2]
	know(now[argument[2]])
	planted = planted_in(argument[3] + 0, argument[4] + 0)
	say_both(bytes_text(argument[4]) " of process " argument[2] " from " hex_word(argument[3]) " on, as in memory" \
		(planted == "" ? "" : "; planted breakpoints: " planted), "")
}

# Whose byte of the one memory this is.
function owner_of(byte, p) {
	for (p = 0; p < 8; p++) {
		know(now[p])
		if (is["there"] && byte >= is["begin"] + 0 && byte < is["begin"] + is["size"]) return "process " p " from " hex_word(byte - is["begin"]) " on"
	}
	return "free"
}

# A part of the one memory, and whose bytes they are: the owner of the first, and of each that begins another process or the free bytes.
function tell_whole(text, first, last, p) {
	first = argument[2] + 0
	last = first + argument[3] - 1
	text = bytes_text(argument[3]) " of the one memory from byte " first " on"
	if (last >= first) text = text ": " owner_of(first)
	for (p = first + 1; p <= last; p++) if (begins(p)) text = text ", then " owner_of(p)
	say_both(text, "")
}

# Whether a process, or what is free, begins at this byte of the one memory.
function begins(byte, p, found, end) {
	for (p = 0; p < 8; p++) {
		know(now[p])
		if (!is["there"]) continue
		if (is["begin"] + 0 == byte) found = 1
		if (is["begin"] + is["size"] > end) end = is["begin"] + is["size"]
	}
	return found || end == byte
}

# ---- a process

# One row of a table: each cell as wide as its column.
function row(cells, widths, cell, width, n, i, text) {
	n = split(cells, cell, "|")
	split(widths, width, " ")
	for (i = 1; i < n; i++) text = text sprintf("%-" width[i] "s  ", cell[i])
	say("  " text cell[n])
}

# The registers, by name, in hex and in decimal.
function tell_registers(names, hexes, decimals, widths, i) {
	for (i = 0; i < 9; i++) {
		names = names (i ? "|" : "") register_names[i + 1]
		hexes = hexes (i ? "|" : "") hex_word(is["register", i])
		decimals = decimals (i ? "|" : "") is["register", i]
		widths = widths " 6"
	}
	row(names, widths)
	row(hexes, widths)
	row(decimals, widths)
}

# A word with its bytes as they lie in memory, the low one first.
function saved_text(n) { return sprintf("0x%04x, bytes %02x %02x", n, n % 256, int(n / 256)) }

# The breakpoints, one a row.
function tell_breakpoints(i) {
	if (!is["breakpoints"]) return
	row("breakpoint|count|saved word|lifted|set by", "10 5 19 6 1")
	for (i = 1; i <= is["breakpoints"]; i++)
		row(hex_word(is["address", i]) "|" is["count", i] "|" saved_text(is["saved", i]) "|" (is["lifted", i] == 1 ? "yes" : "no") "|" \
			host_name(is["owner", i]), "10 5 19 6 1")
}

# The record of a process as a table.
function tell_process(p, widths) {
	p = event_process = argument[2]
	know(now[p])
	say_both("process " p " is " (is["there"] ? "there" : "not there"), "")
	if (!is["there"]) return
	widths = "11 10 20 10 9 15 11 1"
	row("debugged by|watched by|run state|size|begins at|breakpoints set|owed answer|waiting Go", widths)
	row(host_name(is["host"]) "|" host_name(is["watcher"]) "|" run_name(is["run"]) "|" bytes_text(is["size"]) "|" is["begin"] "|" is["set"] "|" \
		(is["owed"] == "-" ? "none" : "to " is["owed"]) "|" (is["go"] == "-" ? "none" : "ID " is["id"] ", ticks " is["ticks"]), widths)
	tell_registers()
	tell_breakpoints()
}
