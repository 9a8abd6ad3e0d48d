# Draws a recording as a page: a lane for each host and for each process, a row for each call from top to bottom, and in the lane of a process who debugs
# it, who watches it and what it does. Its parts are rows.awk and marks.awk; it needs calls.awk, fault.awk and words.awk. HERE of the environment is the
# folder of examples/play, and RECORDING the name of the recording.

# ---- above the lanes and around them

# The columns: hosts and processes that occur, in the order of their numbers, where each begins, and how wide all is.
function lay_columns(n, k) {
	wide_number = 36 + 14 * length(calls); wide_words = 450; wide_host = 74; wide_spine = 26
	wide_part[1] = wide_part[2] = 66; wide_part[3] = 106
	for (n = 1; n < 256; n++) if (n in host_occurs) { host_column[n] = hosts + 0; host_list[++hosts] = n }
	wide = wide_number + wide_words + hosts * wide_host
	for (n = 0; n < 8; n++) if (n in process_named && n in process_started) {
		process_list[++processes] = n
		process_begin[n] = wide
		wide += wide_spine
		for (k = 1; k <= 3; k++) if (has_part(n, k)) { parts_of[n]++; wide += wide_part[k] }
	}
}

# Whether a part of the lane of a process is shown: who debugs and who watches, if ever somebody does, and the run state.
function has_part(p, k) { return k == 3 || lane_changes[p, k] > 1 }

# So many of a thing.
function so_many(n, one, many) { return n + 0 " " (n == 1 ? one : many) }

# The first sentence of the introduction is the title; the rest stays.
function take_title(end) {
	end = index(introduction, ". ")
	title = end ? substr(introduction, 1, end - 1) : introduction
	introduction = end ? substr(introduction, end + 2) : ""
	sub(/[.:]$/, "", title)
	title = title == "" ? "A recording" : cut(title, 140)
}

# The head of the page.
function print_head(text, status) {
	print "<!DOCTYPE html>"
	print "<html lang=\"en\">"
	print "<head>"
	print "<meta charset=\"utf-8\">"
	print "<title>" html(title) "</title>"
	print "<style>"
	while ((status = (getline text <(ENVIRON["HERE"] "/playing/picture.css"))) > 0) print text
	if (status < 0) give_up("examples/playing/picture.css is missing")
	if (wide > 1040) printf "@media print { .lanes { zoom: %.2f; } }\n", 1040 / wide
	print "</style>"
	print "</head>"
}

# Above the lanes: title, introduction and a few numbers.
function print_introduction() {
	print "<h1>" html(title) "</h1>"
	if (introduction != "") print "<p>" html(introduction) "</p>"
	print "<p class=\"facts\">" html(ENVIRON["RECORDING"]) ": " so_many(calls, "call", "calls") ", " so_many(refusals, "refusal", "refusals") \
		(unclear ? ", " so_many(unclear, "line", "lines") " not understood" : "") "." untouched() "</p>"
}

# The processes that are there and that no call is about.
function untouched(p, text, n) {
	for (p = 0; p < 8; p++) if (p in process_started && !(p in process_named)) { n++; text = text (text == "" ? "" : ", ") p }
	return n == 0 ? "" : " Also there, and no call is about " (n == 1 ? "it: process " : "them: processes ") text "."
}

# The times in which a part of a lane has a host, as a text.
function times_of(p, k, i, text, end) {
	for (i = 1; i <= lane_changes[p, k]; i++) {
		if (lane_at[p, k, i] == 0) continue
		end = i < lane_changes[p, k] ? " to " row_from[lane_row[p, k, i + 1]] : " to the end"
		text = text (text == "" ? "" : "<br>") "host " lane_at[p, k, i] ", from call " row_from[lane_row[p, k, i]] end
	}
	return text == "" ? "nobody" : text
}

# Who holds what when, as a table.
function print_times(i) {
	if (!processes) return
	print "<h2>Who holds what</h2>"
	print "<table class=\"times\">"
	print "<thead><tr><th>Process</th><th>Debugged by</th><th>Watched by</th></tr></thead>"
	print "<tbody>"
	for (i = 1; i <= processes; i++)
		print "<tr><td>process " process_list[i] "</td><td>" times_of(process_list[i], 1) "</td><td>" times_of(process_list[i], 2) "</td></tr>"
	print "</tbody>"
	print "</table>"
}

# The widths of the columns.
function print_widths(i, k) {
	printf "<colgroup><col style=\"width:%dpx\"><col style=\"width:%dpx\">", wide_number, wide_words
	for (i = 1; i <= hosts; i++) printf "<col style=\"width:%dpx\">", wide_host
	for (i = 1; i <= processes; i++) {
		printf "<col style=\"width:%dpx\">", wide_spine
		for (k = 1; k <= 3; k++) if (has_part(process_list[i], k)) printf "<col style=\"width:%dpx\">", wide_part[k]
	}
	print "</colgroup>"
}

# The heads of the columns: the names of hosts and processes, and below them those of the parts of a process.
function print_column_heads(i, k, h) {
	printf "<tr class=\"names\"><th class=\"right\">Call</th><th class=\"left\">What happens</th>"
	for (i = 1; i <= hosts; i++) {
		h = host_list[i]
		printf "<th>host %d%s</th>", h, h == 253 ? "<small>text lines</small>" : h == 254 ? "<small>Pup door</small>" : ""
	}
	for (i = 1; i <= processes; i++) printf "<th class=\"process\" colspan=\"%d\">process %d</th>", parts_of[process_list[i]] + 1, process_list[i]
	printf "</tr>\n<tr class=\"parts\"><th></th><th></th>"
	for (i = 1; i <= hosts; i++) printf "<th></th>"
	for (i = 1; i <= processes; i++) {
		printf "<th class=\"process\"></th>"
		for (k = 1; k <= 3; k++) if (has_part(process_list[i], k)) printf "<th>%s</th>", part_heads[k]
	}
	print "</tr>"
}

# The numbers of the calls of a row.
function calls_of(r) { return row_from[r] == row_to[r] ? row_from[r] : row_from[r] "&#8211;" row_to[r] }

# ---- the bars of a process

# The words of a bar.
function bar_text(k, value) {
	if (k == 3) return value == 6 ? "not there" : run_name(value)
	return value == 0 ? "" : "host " value
}

# The class of a bar.
function bar_class(k, value) {
	if (k == 3) return value == 6 ? "absent" : "run" value
	return value == 0 ? "" : k == 1 ? "held" : "watched"
}

# The colour of a host.
function colour(host) { return colours[host_column[host] % 8 + 1] }

# The piece of a bar in this row. A bar lasts while nothing changes; its words stand at its beginning, and again after every so many rows.
function print_bar(p, k, r, n, begin, last, value, class) {
	n = lane_reached[p, k]
	if (n < lane_changes[p, k] && lane_row[p, k, n + 1] == r) n = ++lane_reached[p, k]
	value = lane_at[p, k, n]
	begin = lane_row[p, k, n] > 0 ? lane_row[p, k, n] : 1
	last = n < lane_changes[p, k] ? lane_row[p, k, n + 1] - 1 : rows
	class = "bar " bar_class(k, value) (r == begin ? " first" : "") (r == last ? " last" : "")
	printf "<td class=\"%s\"%s>", class, (k < 3 && value) ? " style=\"background:" colour(value) "\"" : ""
	if (bar_text(k, value) != "" && (r - begin) % words_again == 0) printf "<span class=\"tag\">%s</span>", bar_text(k, value)
	printf "</td>"
}

# One row.
function print_row(r, i) {
	draw_marks(r)
	printf "<tr class=\"%s\"%s><td class=\"number\">%s</td>", row_class[r], row_line[r] == "" ? "" : " title=\"" html(row_line[r]) "\"", calls_of(r)
	print "<td class=\"words\">" row_words[r] "</td>"
	for (i = 1; i <= hosts; i++) print "<td class=\"host\">" in_host[host_list[i]] "</td>"
	for (i = 1; i <= processes; i++) print_process(process_list[i], r)
	print "</tr>"
}

# The lane of a process in a row.
function print_process(p, r, k, n, there) {
	n = lane_reached[p, 3]
	if (n < lane_changes[p, 3] && lane_row[p, 3, n + 1] == r) n++
	there = lane_at[p, 3, n] != 6
	print "<td class=\"spine" (there ? " there" : "") "\">" in_process[p] "</td>"
	for (k = 1; k <= 3; k++) if (has_part(p, k)) print_bar(p, k, r)
	print ""
}

# The whole page.
function print_page(r, p, k) {
	lay_columns()
	take_title()
	words_again = 8
	split("#cfe3f7 #fbe3b5 #d3efd0 #f3d3e6 #e0d8f5 #f9d5c8 #cdeeea #e8e6c9", colours, " ")
	for (p = 0; p < 8; p++) for (k = 1; k <= 3; k++) lane_reached[p, k] = 1
	print_head()
	print "<body>"
	print_introduction()
	print_times()
	print "<table class=\"lanes\" style=\"width:" wide "px\">"
	print_widths()
	print "<thead>"
	print_column_heads()
	print "</thead>"
	print "<tbody>"
	for (r = 1; r <= rows; r++) print_row(r)
	print "</tbody>"
	print "</table>"
	print_keys()
	print "</body>"
	print "</html>"
}

BEGIN {
	begin_telling()
	begin_lanes()
	while (next_line()) {
		if (is_call(line)) { tell_call(); add_call() }
		else if (line ~ /^#/) add_comment(line)
		else apart = 1
	}
	print_page()
	complain()
	exit
}
