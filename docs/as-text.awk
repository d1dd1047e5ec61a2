# The manual page as plain text, where no program for manual pages is there: awk -f as-text.awk sws.1
function plain(line,    parts) {
    gsub(/Fl -/, "--", line)
    gsub(/ Ns = Ns /, "=", line)
    gsub(/(Ar|Cm) /, "", line)
    if (sub(/^Op /, "[", line)) line = line "]"
    if (split(line, parts, " ") >= 3 && parts[1] == "Xr") line = parts[2] "(" parts[3] ")" parts[4]
    gsub(/ \./, ".", line)
    gsub(/ ,/, ",", line)
    gsub(/ :/, ":", line)
    return line
}
function flush() {
    while (length(text) > 80 - indent) {
        cut = 80 - indent
        while (cut > 1 && substr(text, cut, 1) != " ") cut--
        printf "%*s%s\n", indent, "", substr(text, 1, cut - 1)
        text = substr(text, cut + 1)
    }
    if (text != "") printf "%*s%s\n", indent, "", text
    text = ""
}
function add(words) { text = text (text == "" ? "" : " ") words }
/^\.(Dd|Dt|Os)/ { next }
/^\.Sh/ { flush(); section = substr($0, 5); indent = 0; print (NR > 4 ? "\n" : "") section; indent = 4; next }
/^\.Pp/ { flush(); indent = 4; print ""; next }
/^\.El/ { flush(); indent = 4; next }
/^\.Bl/ { flush(); next }
/^\.It/ { flush(); indent = 4; add(plain(substr($0, 5))); flush(); indent = 8; next }
/^\.Bd/ { flush(); literal = 1; print ""; next }
/^\.Ed/ { literal = 0; next }
literal { gsub(/\\e/, "\\"); printf "        %s\n", $0; next }
/^\.Nm/ { if (section == "SYNOPSIS") flush(); add(NF > 1 && section != "NAME" ? "sws " plain(substr($0, 5)) : "sws"); next }
/^\.Nd/ { add("- " substr($0, 5)); next }
/^\./ { add(plain(substr($0, 2))); next }
{ add($0) }
END { flush() }
