# Magic as a designer's window on a served process of Kolasieve.
#
#   magic% source clients/magic.tcl
#   magic% kolasieve connect ADDRESSFILE NAME ?-take window|server? ?-process DIR? ?-tls CERT KEY CA?
#
# From then on the server has what the window's cell holds, however it came there, and what is forbidden appears as
# feedback. `clients/follow` keeps both in step; this file only looks at the window, and shows what it is told.

namespace eval ::kolasieve {
    # Where the companion's program is, and the channel to it.
    variable program [file join [file dirname [file normalize [info script]]] follow]
    variable pipe {}
    # Magic's crash backup, which is what the companion reads.
    variable backup {}
    # Whether the companion reads it now, and whether the window may have changed meanwhile.
    variable is_read 1
    variable is_due 0
    # How many milliseconds a look at the window took last.
    variable cost 0
    # What each rule forbids, the number that each rule's feedback has, and where it isn't known what is forbidden.
    variable found
    variable numbers
    variable awaiting {}
    # How the feedback of rules is drawn.
    variable style
    # Which of all places that are forbidden `next` has shown last.
    variable at -1
    variable is_hooked 0
    # The commands after which the window is looked at: those of Magic's that may change a cell, or which cell is shown.
    variable commands {
        array cellname clockwise contact copy corner delete dump edit erase fill flush gds getcell iroute load move mzroute
        paint plow polygon redo rotate save scalegrid sideways spliterase splitpaint straighten stretch undo upsidedown wire
    }
    # How long the next look waits at least and at most, in milliseconds: so that looks take a hundredth of the time.
    variable soonest 500
    variable share 100
    array set found {}
    array set numbers {}
}

proc ::kolasieve::say {text} {
    puts stdout "kolasieve: $text"
}

# Carries a command of Magic out without its tags, and returns its result.
proc ::kolasieve::magic {args} {
    return [::magic::*bypass {*}$args]
}

# ---- the companion

proc ::kolasieve::connect {address name args} {
    variable program; variable pipe
    # `file nativename` puts the home folder in the place of `~`.
    set words [list $program [file nativename $address] $name --technology [magic tech filename]]
    while {[llength $args] > 0} {
        set args [lassign $args option]
        set count [expr {$option eq "-tls" ? 3 : 1}]
        if {$option ni {-take -process -tls} || [llength $args] < $count} { error "no option: $option $args" }
        lappend words -$option {*}[lmap each [lrange $args 0 $count-1] {file nativename $each}]
        set args [lrange $args $count end]
    }
    if {$pipe ne {}} { stop leave }
    set pipe [open |[list {*}$words 2>@1] r+]
    fconfigure $pipe -blocking 0 -buffering line -translation lf -encoding utf-8
    fileevent $pipe readable [list ::kolasieve::receive $pipe]
    hook
    variable is_read 1
    look
    return
}

# Reads what the companion has written.
proc ::kolasieve::receive {from} {
    variable pipe
    while {[gets $from line] >= 0} {
        if {[catch { set word [lindex $line 0] }] || $word ni {read say put violations awaiting ended}} {
            say $line
        } elseif {$from eq $pipe || $word eq "say"} {
            ::kolasieve::told_$word {*}[lrange $line 1 end]
        }
    }
    if {[eof $from]} {
        if {$from eq $pipe} { told_ended }
        catch { close $from }
    }
}

# Asks the companion to do something, if there is one.
proc ::kolasieve::ask {word args} {
    variable pipe
    if {$pipe eq {}} { error "no cell is followed: kolasieve connect ADDRESSFILE NAME" }
    puts $pipe [join [list $word {*}$args] \t]
}

# Has the companion leave or close its sessions, with what the window holds now, and end.
proc ::kolasieve::stop {word} {
    variable is_read 1
    look
    ask $word
    forget
}

# Forgets the companion, and takes away what is shown.
proc ::kolasieve::forget {} {
    variable pipe; variable found
    set pipe {}
    after cancel ::kolasieve::look
    foreach text [array names found] { told_violations $text {} }
    told_awaiting {}
}

proc ::kolasieve::told_say {text} {
    say $text
}

proc ::kolasieve::told_ended {} {
    variable pipe
    if {$pipe ne {}} {
        forget
        say "the window isn't followed any more"
    }
}

# ---- looking at the window

# Has the window looked at after all commands that may change it, whoever carries them out.
proc ::kolasieve::hook {} {
    variable is_hooked; variable commands
    if {$is_hooked} return
    set is_hooked 1
    foreach command $commands { add_tag $command ::kolasieve::touched }
    add_tag crash "::kolasieve::backed_up %1 %2"
    add_tag scalegrid ::kolasieve::mark_all
    choose_style
    # Magic carries out what the mouse asks for by this command.
    proc ::*bypass {args} {
        set status [catch { uplevel 1 [list ::magic::*bypass {*}$args] } result options]
        set command [lindex $args 0]
        if {$command in $::kolasieve::commands} { ::kolasieve::touched }
        if {$command eq "scalegrid"} { ::kolasieve::mark_all }
        if {$command eq "crash"} { ::kolasieve::backed_up {*}[lrange $args 1 2] }
        return -options $options $result
    }
}

# Has a script called after a command, beside what is called already.
proc ::kolasieve::add_tag {command script} {
    set others [tag $command]
    tag $command [expr {$others eq {} ? $script : "$others; $script"}]
}

# Looks at the window once the command that runs has ended.
proc ::kolasieve::touched {} {
    variable pipe
    if {$pipe ne {}} {
        after cancel ::kolasieve::look
        after 1 ::kolasieve::look
    }
    return
}

# The crash backup is in a file of the designer's from now on.
proc ::kolasieve::backed_up {{what {}} {path {}}} {
    variable backup
    if {[string match "sav*" $what] && $path ne {}} { set backup [file normalize $path] }
}

# Tells the companion what the window holds, and looks again before long.
proc ::kolasieve::look {} {
    variable pipe; variable is_read; variable is_due; variable cost; variable soonest; variable share
    if {$pipe eq {}} return
    after cancel ::kolasieve::look
    if {!$is_read} {
        set is_due 1
        return
    }
    set is_due 0
    set start [::tcl::clock::microseconds]
    set cell [magic cellname list window]
    if {$cell ne {}} {
        set modified [magic cellname list modified]
        if {[llength $modified] > 0} { back_up }
        set is_read 0
        ask look [path_of $cell] $cell $::kolasieve::backup $modified [magic path search]
    }
    set cost [expr {([::tcl::clock::microseconds] - $start) / 1000}]
    after [expr {max($soonest, $share * $cost)}] ::kolasieve::look
}

proc ::kolasieve::told_read {} {
    variable is_read 1
    variable is_due
    if {$is_due} { touched }
}

# Returns where the file of a cell is, if it has one.
proc ::kolasieve::path_of {cell} {
    set path [magic cellname list filepath $cell]
    return [file normalize [expr {$path in {{} default} ? $cell : $path}]]
}

# Writes Magic's crash backup, which has all modified cells, and finds where it is.
proc ::kolasieve::back_up {} {
    variable backup
    magic crash save
    if {$backup eq {} || ![file exists $backup]} {
        set folder [expr {[info exists ::env(TMPDIR)] ? $::env(TMPDIR) : "/tmp"}]
        set backup [lindex [glob -nocomplain -directory $folder MAG[pid].*] 0]
        if {$backup eq {}} {
            # The designer has named a file before this one was read: nobody knows which.
            set backup [file join $folder MAG[pid].window]
            magic crash save $backup
            say "Magic's crash backup is in $backup from now on"
        }
    }
}

# ---- what the companion has found

# A rule forbids these boxes from now on.
proc ::kolasieve::told_violations {text boxes} {
    variable found; variable numbers; variable style
    if {![info exists numbers($text)]} { set numbers($text) [array size numbers] }
    if {$boxes eq {}} { unset -nocomplain found($text) } else { set found($text) $boxes }
    mark $numbers($text) $text $style $boxes
}

# It isn't known yet what is forbidden in these boxes.
proc ::kolasieve::told_awaiting {boxes} {
    variable awaiting
    if {$boxes eq $awaiting} return
    set awaiting $boxes
    mark awaiting "it isn't known yet what is forbidden here" dotted $boxes
}

# Shows feedback with a number at boxes, and no other with this number.
proc ::kolasieve::mark {number text style boxes} {
    magic feedback clear "kolasieve $number: "
    # Magic substitutes in the text of feedback when it shows it.
    set plain [string map {\[ ( \] ) \{ ( \} ) \$ "" \\ / \" ' ; ,} "kolasieve $number: $text"]
    foreach box $boxes {
        lassign $box left bottom right top
        # Of two corners Magic would draw the line between them.
        magic feedback add $plain $style $left $bottom $right $bottom $right $top $left $top
    }
}

# Shows all once more, as after another scale, to which Magic doesn't bring feedback.
proc ::kolasieve::mark_all {} {
    variable found; variable numbers; variable style
    foreach {text boxes} [array get found] { mark $numbers($text) $text $style $boxes }
    return
}

# Takes a style that designers seldom have for their own feedback, where the display has it.
proc ::kolasieve::choose_style {} {
    variable style magenta
    set before [magic feedback count]
    mark style "" $style {{0 0 1 1}}
    if {[magic feedback count] == $before} { set style medium }
    mark style "" $style {}
}

# Makes the window's cell hold layers in a box.
proc ::kolasieve::told_put {box names layers} {
    set before [magic box values]
    put_box $box
    magic erase [join $names ,]
    foreach layer $layers {
        foreach each [lassign $layer name] {
            put_box $each
            magic paint $name
        }
    }
    magic box values {*}[lmap at $before { string cat $at i }]
    ask done
    touched
}

# Refuses while another cell than the window's is edited: it would get what the window's is to hold.
proc ::kolasieve::check_edited {} {
    set edited [lindex [magic windowcaption] end]
    if {$edited ne [magic cellname list window]} {
        error "$edited is edited, and not the window's cell: select top cell; edit"
    }
}

proc ::kolasieve::put_box {box} {
    magic box values {*}[lmap at $box { string cat $at l }]
}

# ---- what the designer asks for

# Returns each text with a box that it forbids, by text and place.
proc ::kolasieve::all {} {
    variable found
    set all {}
    foreach text [lsort [array names found]] {
        foreach box $found($text) { lappend all [list $text $box] }
    }
    return $all
}

# Puts the box on the next place that is forbidden, and shows it.
proc ::kolasieve::next {} {
    variable at
    set all [all]
    if {$all eq {}} {
        say "nothing is forbidden"
        return
    }
    set at [expr {($at + 1) % [llength $all]}]
    lassign [lindex $all $at] text box
    put_box $box
    magic findbox
    say "[expr {$at + 1}] of [llength $all]: $text"
}

# Says which rules forbid something in the box.
proc ::kolasieve::why {} {
    set scale [expr {double([lindex [magic tech lambda] 0]) / [lindex [magic tech lambda] 1]}]
    lassign [lmap at [magic box values] { expr {$at * $scale} }] left bottom right top
    set texts {}
    foreach each [all] {
        lassign [lindex $each 1] l b r t
        if {$l < $right && $left < $r && $b < $top && $bottom < $t} { lappend texts [lindex $each 0] }
    }
    foreach text [lsort -unique $texts] { say $text }
    if {$texts eq {}} { say "nothing is forbidden in the box" }
}

# Says how often each rule is broken.
proc ::kolasieve::list_all {} {
    variable found; variable awaiting
    foreach text [lsort [array names found]] { say "[llength $found($text)] strips: $text" }
    if {[array size found] == 0} { say "nothing is forbidden" }
    if {$awaiting ne {}} { say "[llength $awaiting] areas await checking" }
}

# kolasieve connect ADDRESSFILE NAME .. | fetch | send | why | next | list | undo | leave | close
proc kolasieve {what args} {
    switch -- $what {
        connect { ::kolasieve::connect {*}$args }
        why { ::kolasieve::why }
        next { ::kolasieve::next }
        list { ::kolasieve::list_all }
        fetch - undo {
            ::kolasieve::check_edited
            ::kolasieve::ask $what
        }
        send { ::kolasieve::ask $what }
        leave - close { ::kolasieve::stop $what }
        default { error "kolasieve connect ADDRESSFILE NAME .. | fetch | send | why | next | list | undo | leave | close" }
    }
}
