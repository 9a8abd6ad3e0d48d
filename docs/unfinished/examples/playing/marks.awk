# The signs of a page that picture.awk draws: lines between the lanes of hosts and processes, and what they mean. Part of picture.awk.

# ---- signs, each a small drawing in the cell of its host or process

# A cross, centred there.
function cross(x) { return sprintf("<path d=\"M%d 3l10 10M%d 13l10-10\" stroke=\"#a00\" stroke-width=\"2.6\" fill=\"none\"/>", x - 5, x - 5) }

# A drawing that begins in the middle of its cell and is so wide.
function drawing(width, text) {
	return sprintf("<svg class=\"mark\" aria-hidden=\"true\" style=\"left:50%%\" width=\"%d\" height=\"16\">", width > 1 ? width : 1) text "</svg>"
}

# A straight line of a kind.
function stroke(from, to, kind) {
	return sprintf("<path d=\"M%d 8H%d\" stroke=\"%s\" stroke-width=\"1.5\"%s fill=\"none\"/>", from, to, kind == "refused" ? "#a00" : "#1a1a1a", \
		kind == "refused" ? " stroke-dasharray=\"5 3\"" : "")
}

# What a host sends to a process so far away, if it is granted; with no process it is a point alone.
function sent(far) {
	if (!far) return drawing(1, "<circle cx=\"0\" cy=\"8\" r=\"3.5\"/>")
	return drawing(far, stroke(4, far - 8) "<circle cx=\"0\" cy=\"8\" r=\"3.5\"/>" sprintf("<path d=\"M%d 3.5L%d 8l-9 4.5z\"/>", far - 9, far))
}

# The same if it is refused: a broken line that ends at a cross, with the number; with no process, in the lane of the host.
function refused_mark(far, refused_with, begin) {
	begin = "<circle cx=\"0\" cy=\"8\" r=\"3.5\" fill=\"#fff\" stroke=\"#a00\" stroke-width=\"1.5\"/>"
	if (!far) return drawing(36, begin cross(10) sprintf("<text x=\"17\" y=\"12\" fill=\"#a00\">%d</text>", refused_with))
	return drawing(far, begin stroke(4, far - 14, "refused") cross(far - 7) \
		sprintf("<text x=\"%d\" y=\"5\" text-anchor=\"end\" fill=\"#a00\">%d</text>", far - 15, refused_with))
}

# A notice of a process so far away.
function notice(far) {
	return drawing(far, stroke(9, far - 4, "notice") "<path d=\"M9 3.5L0 8l9 4.5z\"/>" sprintf("<rect x=\"%d\" y=\"4\" width=\"8\" height=\"8\"/>", far - 4))
}

# A question of a host, which is not sent.
function question() { return drawing(1, "<circle cx=\"0\" cy=\"8\" r=\"7\" fill=\"#fff\" stroke=\"#1a1a1a\"/><text x=\"0\" y=\"12\" text-anchor=\"middle\">?</text>") }

# What is in the lane of a host: a mark of the row, or nothing.
function host_sign(mark, far) {
	if (mark[3] == "why") return question()
	if (mark[2] in process_begin)
		far = process_begin[mark[2]] + wide_spine / 2 - wide_number - wide_words - (host_column[mark[1]] + 0.5) * wide_host
	if (mark[3] == "notice") return notice(far)
	return mark[3] == "refused" ? refused_mark(far, mark[4]) : sent(far)
}

# What is in the lane of a process where no host is meant.
function process_sign(mark) {
	if (mark[3] == "refused") return drawing(1, cross(0) sprintf("<text x=\"8\" y=\"5\" fill=\"#a00\">%d</text>", mark[4]))
	if (mark[3] == "report") return drawing(1, "<rect x=\"-4\" y=\"4\" width=\"8\" height=\"8\"/>")
	if (mark[3] == "store") return drawing(1, "<path d=\"M-5 8L0 3l5 5-5 5z\"/>")
	if (mark[3] == "tick") return drawing(1, "<circle cx=\"0\" cy=\"8\" r=\"2.5\"/>")
	return drawing(1, "<circle cx=\"0\" cy=\"8\" r=\"4\" fill=\"#fff\" stroke=\"#1a1a1a\" stroke-width=\"1.5\"/>")
}

# Draws the marks of a row: what goes into the cell of each host and process.
function draw_marks(r, list, mark, n, i) {
	split("", in_host)
	split("", in_process)
	n = split(row_marks[r], list, " ")
	for (i = 1; i <= n; i++) {
		split(list[i], mark, ":")
		if (mark[1] > 0) in_host[mark[1]] = in_host[mark[1]] host_sign(mark)
		else in_process[mark[2]] = in_process[mark[2]] process_sign(mark)
	}
}

# ---- the key

# One line of the key.
function print_key(sign, text) {
	gsub(/ class="mark"/, "", sign)
	gsub(/ style="left:50%"/, "", sign)
	print "<tr><td style=\"padding-left:10px\">" sign "</td><td>" text "</td></tr>"
}

# What the signs mean.
function print_keys() {
	print "<table class=\"key\"><tbody>"
	print_key(sent(90), "a host asks, and it is granted")
	print_key(refused_mark(90, 8), "a host asks, and is refused: the number is that of the test that failed, and the words say why")
	print_key(notice(90), "the machine reports, and the host is told")
	print_key(process_sign_key("report"), "the machine reports, and nobody is told")
	print_key(process_sign_key("store"), "the machine stores a byte")
	print_key(process_sign_key("tick"), "a tick, a tenth of a second for the Go that waits")
	print_key(process_sign_key("look"), "a look, which changes nothing")
	print_key(question(), "why would a request of this host be refused? Nothing is sent")
	print "</tbody></table>"
}

# A sign of a process for the key.
function process_sign_key(name, mark) { mark[3] = name; return process_sign(mark) }
