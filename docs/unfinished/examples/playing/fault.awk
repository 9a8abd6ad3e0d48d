# Says why a line is none of a recording's, where replay prints `?` for it. docs/RECORDINGS.md has the lines. Needs calls.awk.

# A text in quotes, cut where it is long.
function quoted(text) { return "`" (length(text) > 40 ? substr(text, 1, 37) "..." : text) "`" }

# What is wrong with a number that is to be 0 to high; nothing if it is right.
function number_fault(text, name, high) {
	if (text == "") return name " is missing"
	if (text ~ /^[-+]/) return name " " quoted(text) " has a sign"
	if (text !~ /^[0-9]+$/) return name " " quoted(text) " is not a decimal number"
	if (text ~ /^0[0-9]/) return name " " quoted(text) " has a leading zero"
	if (length(text) > 12 || text + 0 > high + 0) return name " " quoted(text) " is out of range: it is 0 to " high
	return ""
}

# The first fault among the numbers of a line, whose names and greatest values are lists: of too few, of too many, or of one of them.
function numbers_fault(names, highs, name, high, n, i, fault) {
	n = split(names, name, " ")
	split(highs, high, " ")
	for (i = 1; i <= n; i++) if ((fault = number_fault(argument[i + 1], name[i], high[i])) != "") return fault
	if (arguments > n + 1) return quoted(argument[n + 2]) " is too much: " word " takes " n (n == 1 ? " number" : " numbers")
	return ""
}

# What is wrong with a pair of hex digits.
function pair_fault(text) {
	if (text ~ /^[0-9a-f][0-9a-f]$/) return ""
	if (text ~ /^[0-9a-fA-F][0-9a-fA-F]$/) return quoted(text) " has a hex digit in upper case"
	if (text ~ /^[0-9a-fA-F]$/) return quoted(text) " is half a pair of hex digits"
	return quoted(text) " is not a pair of hex digits"
}

# What is wrong with the bytes of a line of any length.
function bytes_fault(text, part, n, i, fault) {
	n = split(text, part, " ")
	if (n < 2) return word " needs a byte at least, as a pair of hex digits"
	for (i = 2; i <= n; i++) if ((fault = pair_fault(part[i])) != "") return fault
	return ""
}

# What is wrong with a word of a start: a process, or one with its size.
function sized_fault(text, part, n, fault) {
	n = split(text, part, ":")
	if ((fault = number_fault(part[1], "the process", 7)) != "") return fault
	if (n > 2) return quoted(text) " has two colons"
	if (n == 2) return number_fault(part[2], "the size after `" part[1] ":`", 65535)
	return ""
}

# What is wrong with a start.
function start_fault(i, fault) {
	for (i = 2; i <= arguments && argument[i] != "pup"; i++) if ((fault = sized_fault(argument[i])) != "") return fault
	if (i > arguments) return ""
	if ((fault = number_fault(argument[i + 1], "the process after pup", 255)) != "") return fault
	return i + 1 < arguments ? quoted(argument[i + 2]) " is too much: pup and its process come last" : ""
}

# What is wrong with an address of a process.
function store_fault(fault) {
	if ((fault = numbers_fault("P ADDRESS BYTE", "7 65535 255")) != "") return fault
	know(now[argument[2]])
	if (!is["there"]) return "process " argument[2] " is not there"
	return "ADDRESS " argument[3] " is out of range: process " argument[2] " has the addresses 0 to " is["size"] - 1
}

# What is wrong with a part of a process.
function memory_fault(fault) {
	if ((fault = numbers_fault("P ADDRESS COUNT", "7 65535 65535")) != "") return fault
	know(now[argument[2]])
	if (!is["there"]) return "process " argument[2] " is not there, and has no bytes"
	return "ADDRESS and COUNT are " argument[3] + argument[4] " together: process " argument[2] " has " is["size"] " bytes"
}

# What is wrong with a part of the one memory.
function whole_fault(fault) {
	if ((fault = numbers_fault("ADDRESS COUNT", "16384 256")) != "") return fault
	return "ADDRESS and COUNT are " argument[2] + argument[3] " together: the one memory has 16384 bytes"
}

# What is wrong with a packet.
function packet_fault(i, fault) {
	if ((fault = number_fault(argument[2], "TYPE", 255)) != "") return fault
	if ((fault = number_fault(argument[3], "ID", "4294967295")) != "") return fault
	for (i = 4; i <= arguments; i++) if ((fault = number_fault(argument[i], "data word " i - 3, 65535)) != "") return fault
	return arguments > 67 ? "a packet has at most 64 data words, and this one " arguments - 3 : ""
}

# What is wrong with what comes after the word of a line.
function word_fault() {
	if (word ~ /^(request|why|raw)$/) return bytes_fault(line)
	if (word == "start") return start_fault()
	if (word == "report") return numbers_fault("P KIND REASON R0 R1 R2 R3 R4 R5 SP PC PS", \
		"255 255 65535 65535 65535 65535 65535 65535 65535 65535 65535 65535")
	if (word == "store") return store_fault()
	if (word == "memory") return memory_fault()
	if (word == "whole") return whole_fault()
	if (word == "process") return numbers_fault("P", "7")
	if (word == "packet") return packet_fault()
	if (word == "tick") return "nothing comes after tick"
	if (word == "line") return "a blank comes after `line`, and then the text line"
	return "unknown word " quoted(word) (tolower(word) in known ? ": words are in lower case" : "")
}

# What is wrong with the characters of a line, whatever its word is.
function form_fault() {
	if (line ~ /\t/) return "it has a tab: single blanks separate its words"
	if (line ~ /\r/) return "it has a carriage return inside"
	if (line ~ /^ /) return "it begins with a blank"
	if (line ~ / $/) return "it ends with a blank"
	if (line ~ /  /) return "it has two blanks in a row: single blanks separate its words"
	if (length(line) > 1024 && word !~ /^(request|why|raw)$/) return "it has " length(line) " characters, and may have 1024"
	return ""
}

# Why the line is not understood.
function fault_of_line(list, n, i, fault) {
	n = split("start request report line raw store memory whole packet tick why process", list, " ")
	for (i = 1; i <= n; i++) known[list[i]] = 1
	if (!(word in known) && line !~ /^[ \t]/) return word_fault()
	if ((fault = form_fault()) != "") return fault
	if ((fault = word_fault()) != "") return fault
	return "it is none of the lines of docs/RECORDINGS.md"
}
