# Tells the calls of the two doors in words, which have none of their own at the desk: packets and ticks of the Pup door, and text lines. Part of words.awk.

# ---- packets

# The ID after an ID.
function next_id(id) { return id == "4294967295" ? "0" : sprintf("%.0f", id + 1) }

# What a packet asks.
function packet_sentence(type, text) {
	type = argument[2]
	if (type == 128 && arguments > 4) text = "Store of " both(argument[5]) " into word " argument[4]
	else if (type == 129 && arguments > 3) text = "Fetch of word " argument[4]
	else if (type == 128 || type == 129) text = (type == 128 ? "Store" : "Fetch") " with " (arguments > 3 ? "one data word" : "no data word")
	else text = type == 130 ? "Go" : type == 131 ? "GoReply" : "packet of type " type
	return "host 254: " text ", ID " argument[3]
}

# Why a packet is refused.
function packet_reason(type) {
	type = argument[2]
	if (answer[1] == 3) return type == 128 ? "a Store has two data words or more" : "a Fetch has one data word or more"
	if (answer[1] == 5) return "128 is Store, 129 Fetch, 130 Go and 131 GoReply; the door takes no other type"
	if (answer[1] == 7) return door > 7 ? "the Pup door is at no process" : "there is no process " door
	if (answer[1] == 8) return is["watcher"] == 254 ? "host 254 watches process " door ", and may only Fetch" : who_debugs(door)
	if (answer[1] == 9) return it_is() ": Go wants it stopped or at a breakpoint"
	return "word " argument[4] " is past the last one of process " door " (" is["size"] / 2 - 1 ")"
}

# The block of words in an acknowledgement.
function block_text(n, base) {
	if (answers < 6) return ""
	n = answer[6]
	base = answer[4] - answer[4] % n
	return n == 1 ? "; word " base " follows" : "; words " base " to " base + n - 1 " follow"
}

# What a granted Go comes to; `is` is the process before it.
function go_text() {
	if (is["id"] == argument[3]) return "acknowledged again; it has waited " ticks_text(is["ticks"])
	return (is["go"] == "-" ? "acknowledged" : "acknowledged; the Go of ID " is["id"] " is abandoned") \
		"; process " door " waits for GoReply " next_id(argument[3]) ", or for the hundredth tick"
}

# What a granted GoReply comes to; `is` is the process before it.
function reply_text() {
	if (is["go"] == "-") return "nothing changes, since no Go waits"
	if (next_id(is["id"]) != argument[3]) return "the Go of ID " is["id"] " is abandoned, which waits for GoReply " next_id(is["id"])
	return stands() ? "process " door " runs" : "the Go of ID " is["id"] " ends: " it_is()
}

# So many ticks.
function ticks_text(n) { return n == 1 ? "1 tick" : n + 0 " ticks" }

# A packet of the Pup door.
function tell_packet(text, left) {
	hear_desk()
	event_host = 254
	split("", is)
	if (door < 8) { event_process = door; know(was[door]) }
	if (answer[1] != 0) { refuse(packet_sentence(), "no answer", packet_reason()); return }
	left = is["go"] == "-" ? "" : "; the Go of ID " is["id"] " is abandoned"
	if (argument[2] == 130) text = go_text()
	else if (argument[2] == 131) text = reply_text()
	else text = (argument[2] == 128 ? "done" : "the word is " both(answer[5])) block_text() left
	say_both(packet_sentence(), text)
}

# A tenth of a second for the Go that waits.
function tell_tick(text) {
	hear_desk()
	if (door < 8) { event_process = door; know(was[door]) }
	if (door > 7 || is["go"] == "-") text = "no Go waits"
	else if (is["ticks"] < 99) text = "the Go of process " door " has waited " ticks_text(is["ticks"] + 1)
	else text = stands() ? "the hundredth: process " door " runs" : "the hundredth: the Go of process " door " ends, since " it_is()
	say_both("tick", text)
}

# ---- text lines

# The text of the bytes of a raw line; a newline at its end is left out, and any other byte that is no character is a dot.
function raw_text(text, i, byte) {
	for (i = 2; i <= arguments && i < 80; i++) {
		byte = hex_value(argument[i])
		if (byte == 10 && i == arguments) break
		text = text (byte > 31 && byte < 127 ? sprintf("%c", byte) : ".")
	}
	return text
}

# The name of a register by its number in hex.
function register_name(digits) { return digits ~ /^0x[0-8]$/ ? register_names[substr(digits, 3) + 1] : "register " digits }

# Whether a text is a line of four fields with numbers of 32 bits at most.
function has_four_fields(text, field, i) {
	if (text !~ /^0x(0|[1-9a-f][0-9a-f]*) [idIDrRcs] 0x(0|[1-9a-f][0-9a-f]*) 0x(0|[1-9a-f][0-9a-f]*)$/) return 0
	split(text, field, " ")
	for (i = 1; i <= 4; i++) if (length(field[i]) > 10) return 0
	return 1
}

# What a text line of four fields asks.
function letter_sentence(letter, address, data, of) {
	if (letter ~ /[id]/) return "read the word at " address of
	if (letter ~ /[ID]/) return "write " data " at " address of
	if (letter == "r") return "read " register_name(address) of
	if (letter == "R") return "write " data " into " register_name(address) of
	return "let " substr(of, 5) (letter == "c" ? " go on" : " execute one instruction") (address == "0x1" ? "" : ", from " address)
}

# Why a text line of four fields is refused.
function line_reason(letter, address, data, p) {
	if (answer[1] == 103) return "there is no process " p
	if (answer[1] == 101) return is["watcher"] == 253 ? "host 253 watches process " p ", and may only ask `i` and `d`" : who_debugs(p)
	if (answer[1] == 116) return "the answer to its " quoted(is["owed"]) " is owed"
	if (answer[1] == 122) return letter == "R" ? data " is too large for a register" : it_is() ": " quoted(letter) " wants it stopped or at a breakpoint"
	if (letter ~ /[rR]/) return "the registers are 0x0 to 0x8"
	if (letter ~ /[cs]/) return address " cannot be the PC: it is odd or past the end (" sprintf("0x%x", is["size"]) ")"
	return hex_value(substr(address, 3)) % 4 ? address " is not divisible by 4" : "a word there is past the end (" sprintf("0x%x", is["size"]) ")"
}

# What a granted text line comes to.
function line_answer(letter) {
	if (letter ~ /[cs]/) return "granted; it is answered when the process stops"
	return letter ~ /[idr]/ ? answer[5] : "done; it was " answer[5]
}

# A text line, which counts as a request of host 253.
function tell_line(text, field, p, called) {
	hear_desk()
	text = word == "raw" ? raw_text() : substr(line, 6)
	event_host = 253
	split(text, field, " ")
	p = field[1]
	if (answer[1] != 6 && p ~ /^0x[0-7]$/) { p = event_process = substr(p, 3) + 0; know(was[p]) }
	if (answer[1] == 6) { refuse("host 253: " quoted(text), "no answer", "no process or no letter can be read in it"); return }
	if (!has_four_fields(text) || word == "raw" && line !~ / 0a$/) {
		refuse("host 253: " quoted(text), "refused", "the line cannot be read" (word == "raw" && line !~ / 0a$/ ? ": no newline ends it" : ""))
		return
	}
	called = "host 253: " letter_sentence(field[2], field[3], field[4], " of process " p)
	if (answer[1] != 0) refuse(called, "refused", line_reason(field[2], field[3], field[4], p))
	else say_both(called, line_answer(field[2]))
}
