# Tells a call and its answer in words. tell_call leaves
#   told[1 ..]                     the lines: a sentence with its answer, and below it bytes, registers or a table
#   sentence, reply                the two halves of the first line: what was called, and what came of it, which may be empty
#   outcome                        granted, refused, asked (nothing was to change) or unclear, which is `?`
#   number                         of the test that refused it, or 0
#   event_host, event_process      who asked, and of which process; -1 for none
#   told_host, told_line           the host that gets the notice of a report, -1 for none; 1 if a text line goes to host 253 with it
# Its parts are looks.awk and doors.awk; it needs calls.awk and fault.awk.

# One more line.
function say(text) { told[++tellings] = text }

# The first line: what was called, and what came of it.
function say_both(called, text) {
	sentence = called
	reply = text
	say(text == "" ? called : called " -> " text)
}

# ---- plain words

# The name of a host; 0 is nobody.
function host_name(host) { return host + 0 == 0 ? "nobody" : "host " host }

# So many bytes.
function bytes_text(n) { return n + 0 == 1 ? "1 byte" : n + 0 " bytes" }

# A word in hex.
function hex_word(n) { return sprintf("0x%04x", n) }

# A number in decimal and hex.
function both(n) { return n " (" hex_word(n) ")" }

# The value of hex digits.
function hex_value(digits, value, i) {
	for (i = 1; i <= length(digits); i++) value = value * 16 + index("0123456789abcdef", substr(digits, i, 1)) - 1
	return value + 0
}

# The name of a run state.
function run_name(run) { return run_names[run + 1] }

# That the process is in its run state.
function it_is() { return "the process " (is["run"] == 4 ? "has ended" : "is " run_name(is["run"])) }

# Who debugs a process.
function who_debugs(p) { return host_name(is["host"]) " debugs process " p }

# Whether the process is stopped or at a breakpoint, so that it can go on.
function stands() { return is["run"] == 2 || is["run"] == 3 }

# Ends a sentence with a refusal: its number, and the reason in words.
function refuse(called, way, reason) {
	outcome = "refused"
	number = answer[1] + 0
	say_both(called, way " (" number ": " reason ")")
}

# ---- start

# Why a start is refused: the first size that is wrong, or all of them together.
function start_reason(p, sum) {
	for (p = 0; p < 8; p++) if (p in size_of) {
		sum += size_of[p]
		if (size_of[p] == 0) return "process " p " cannot have 0 bytes"
		if (size_of[p] % 2) return "process " p " cannot have " size_of[p] " bytes: a size is even"
		if (size_of[p] > 4096) return "process " p " cannot have " size_of[p] " bytes: a size is at most 4096"
	}
	return "the sizes are " sum " bytes together, and memory has 16384"
}

# A fresh start.
function tell_start(text, p) {
	read_start(line)
	for (p = 0; p < 8; p++) if (p in size_of) text = text (text == "" ? "" : ", ") "process " p " with " bytes_text(size_of[p])
	text = "fresh start: " (text == "" ? "no process" : text)
	if (!silent) { refuse(text, "refused", start_reason()); return }
	door = start_door
	say_both(text (door < 8 ? "; the Pup door is at process " door : ""), "")
}

# ---- requests

# The reason that the desk gave, without its number.
function desk_reason(n, text) {
	if (said[n] !~ /^why: .* \([0-9]+\)$/) give_up("target/bin/desk does not say why line " line_number " is refused: " said[n])
	text = substr(said[n], 6)
	sub(/ \([0-9]+\)$/, "", text)
	return text
}

# What the desk says of a call: the words of a request go to asked, from 1 on, and what it said when it carried it out to said. Its first line has to be
# what replay printed; of a query it has the same number.
function hear_desk(n, i) {
	askings = desk_said()
	for (i = 1; i <= askings; i++) asked[i] = said[i]
	n = desk_said()
	if (n && said[1] != came && (word != "why" || index(said[1], answer[1] " ") != 1))
		give_up("target/bin/desk and target/bin/replay answer line " line_number " differently: " said[1] ", " came)
	return n
}

# Who asks a request, of which process, as its bytes say; where they cannot be read, nobody. A CREATE is of the process that is made.
function find_asker(refused_with, cmd) {
	refused_with = answer[1] + 0
	cmd = hex_value(argument[6])
	if (refused_with == 3 || refused_with == 4) return
	event_host = hex_value(argument[3])
	if (refused_with == 5 || refused_with == 6 || cmd == 0) return
	if (cmd != 12) event_process = hex_value(argument[7])
	else if (came ~ /^0 /) event_process = hex_value(answer[7])
}

# What a request asks, as the desk says it.
function request_sentence() { return asked[1] ~ /^no request/ ? "no request" : asked[1] }

# What a request that is granted comes to.
function granted_text(cmd) {
	cmd = hex_value(argument[6])
	if (cmd == 16) return substr(said[2], index(said[2], ": ") + 2)
	if (cmd != 12) return "done"
	know(now[event_process])
	return "done: process " event_process ", with " bytes_text(is["size"]) " from byte " is["begin"] " of memory on"
}

# A message of over 266 bytes, of which the desk is not told.
function long_reason() { return "the message has " bytes_in(line) " bytes, not 10 to 266" }

# A request and its reply, with the bytes that the one or the other carries.
function tell_request(n, i) {
	n = hear_desk()
	if (bytes_in(line) > 266) { refuse("no request", "no reply", long_reason()); return }
	find_asker()
	if (answer[1] != 0) refuse(request_sentence(), answer[2] == "-" ? "no reply" : "CAN'T", desk_reason(n))
	else say_both(request_sentence(), granted_text())
	for (i = 2; i <= askings; i++) say(asked[i])
	for (i = 3; i <= n; i++) if (answer[1] == 0) say(said[i])
}

# What a request would come to, which nothing is changed by.
function tell_why(n) {
	n = hear_desk()
	outcome = "asked"
	if (bytes_in(line) > 266) { say_both("no request", "would get no reply (3: " long_reason() ")"); return }
	find_asker()
	if (came == "granted") { say_both(request_sentence(), "would be granted"); return }
	say_both(request_sentence(), "would get " (answer[1] < 7 ? "no reply" : "a CAN'T") " (" answer[1] ": " desk_reason(n) ")")
}

# ---- reports

# What a report says, where no notice has it in words.
function report_sentence(kind) {
	kind = argument[3] > 3 ? "report of kind " argument[3] : kind_names[argument[3] + 1]
	return kind " of process " argument[2] " at " hex_word(argument[12]) (argument[4] > 0 ? ": reason " argument[4] : "")
}

# Why a report is refused.
function report_reason() {
	if (answer[1] == 7) return "there is no process " argument[2]
	if (answer[1] == 14 && argument[3] > 3) return "the kinds are 0 TRAP, 1 HALT, 2 BPT and 3 TTRAP"
	if (answer[1] == 14) return "only a TRAP has a reason other than 0"
	return it_is() ": " (argument[3] == 3 ? "a TTRAP comes while it is stepping or passing" : "it executes nothing")
}

# Why no notice goes out.
function untold_text(k) {
	k = breakpoint_at(argument[12])
	if (argument[3] == 2 && k && is["count", k] > 0)
		return "passed in silence, nobody is told; passes left: " is["count", k] - 1
	if (argument[3] == 3 && is["run"] == 5) return "nobody is told: it is past its breakpoint and runs"
	return "nobody is told, since nobody debugs it"
}

# The text line that goes out with a report: how the process stopped.
function tell_owed(text, part) {
	if (!index(came, " | ")) return
	told_line = 1
	text = substr(came, index(came, " | ") + 3)
	split(text, part, " ")
	say("host 253 gets the answer to its " quoted(part[2]) ": " (part[4] == "0x0" ? "ended" : "stopped by signal " substr(part[4], 3, 1)))
}

# A report of the machine.
function tell_report(n, at) {
	n = hear_desk()
	event_process = argument[2]
	if (event_process < 8) know(was[event_process])
	if (answer[1] != 0) { refuse(report_sentence(), "refused", report_reason()); return }
	if (n < 2) { say_both(report_sentence(), untold_text()); tell_owed(); return }
	told_host = hex_value(answer[3])
	at = index(said[2], ", R0 ")
	say_both(substr(said[2], 1, at - 1), "host " told_host " is told")
	say("  " substr(said[2], at + 2))
	tell_owed()
}

# ---- any call

# Reads what the desk said before the first call.
function begin_telling() {
	split("running,stepping,stopped,at a breakpoint,ended,passing a breakpoint", run_names, ",")
	split("TRAP HALT BPT TTRAP", kind_names, " ")
	split("R0 R1 R2 R3 R4 R5 SP PC PS", register_names, " ")
	door = 255
	desk_said()
	desk_said()
	read_processes(0)
}

# A line that is not understood, and why.
function tell_unclear() {
	hear_desk()
	outcome = "unclear"
	say_both("not understood: " fault_of_line(), "")
	if (!unclear++) first_unclear = line_number
}

# Writes, at the end, how many lines were not understood to the file complaint of the folder; nothing where all were.
function complain() {
	if (!unclear) return
	print "examples/play: " (unclear == 1 ? "line " first_unclear " was" : unclear " lines were") " not understood" \
		(unclear == 1 ? "" : ", the first is line " first_unclear) >(ENVIRON["FOLDER"] "/complaint")
}

# Tells the call that was read last.
function tell_call() {
	tellings = 0
	outcome = "granted"
	number = 0
	event_host = event_process = told_host = -1
	told_line = 0
	if (came == "?") tell_unclear()
	else if (word == "start") { hear_desk(); tell_start() }
	else if (word == "request") tell_request()
	else if (word == "why") tell_why()
	else if (word == "report") tell_report()
	else if (word == "store") tell_store()
	else if (word == "packet") tell_packet()
	else if (word == "tick") tell_tick()
	else if (word == "line" || word == "raw") tell_line()
	else tell_look()
}
