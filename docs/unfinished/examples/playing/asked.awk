# Writes what a program is asked about a recording: PROGRAM of the environment is replay or, once replay has answered, desk. Needs calls.awk.

# replay: the line of every process.
function ask_processes(p) { for (p = 0; p < 8; p++) print "process " p }

# replay: each call, and after it every process.
function ask_replay() {
	ask_processes()
	while (next_of("recording")) if (is_call(got)) {
		print got
		ask_processes()
	}
}

# desk: a start as short as can be, since a line of the desk has at most 1,024 characters.
function short_start(text, p) {
	if (!read_start(line)) give_up("a start that replay granted cannot be read: " substr(line, 1, 80))
	text = "start"
	for (p = 0; p < 8; p++) if (p in size_of) text = text " " p ":" size_of[p]
	return text " pup " start_door
}

# desk: what one call asks of it. A message of over 266 bytes gets no reply and changes nothing, so that the desk need not know of it; nor of what
# was refused, but for requests. A request that would be refused changes nothing if it is made, and the desk tells why.
function ask_call() {
	if (word == "start") ask_desk("", silent ? short_start() : "")
	else if (came == "?") ask_desk("", "")
	else if (word == "request") ask_desk(bytes_in(line) <= 266 ? after_word(line) : "", bytes_in(line) <= 266 ? line : "")
	else if (word == "why" && bytes_in(line) > 266) ask_desk("", "")
	else if (word == "why") ask_desk(after_word(line), came == "granted" ? "" : "request " after_word(line))
	else if (word == "store" || answer[1] == "0" && word ~ /^(report|line|raw|packet|tick)$/) ask_desk("", line)
	else ask_desk("", "")
}

# desk: each call.
function ask_all_calls() {
	ask_desk("", "start")
	read_processes(0)
	while (next_line()) if (is_call(line)) ask_call()
}

BEGIN {
	if (ENVIRON["PROGRAM"] == "replay") ask_replay()
	else ask_all_calls()
	exit
}
