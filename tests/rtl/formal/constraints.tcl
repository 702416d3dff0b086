# Runs an SDC file in the place of a timing tool: `yosys -c constraints.tcl` or tclsh, with the environment SDC (the file), CELLS (a file with
# the name of each cell), SETTINGS (a Tcl script that sets the file's variables) and OUT. OUT gets a line for each constraint: its command, its
# limit, the cells it begins at, and those it ends at.
set file [open $env(CELLS)]
set all_cells [split [string trim [read $file]] "\n"]
close $file
set out [open $env(OUT) w]

# As in Vivado: * does not match the separator of a hierarchy.
proc get_cells {patterns} {
    global all_cells
    set found {}
    foreach pattern $patterns {
        set expression "^[string map {. \\. * {[^/]*} ? {[^/]} [ \\[ ] \\]} $pattern]\$"
        lappend found {*}[lsearch -all -inline -regexp $all_cells $expression]
    }
    return $found
}

proc constraint {command arguments} {
    global out
    set limit {} ; set from {} ; set to {}
    for {set i 0} {$i < [llength $arguments]} {incr i} {
        set word [lindex $arguments $i]
        switch -- $word {
            -from { incr i; set from [lindex $arguments $i] }
            -to { incr i; set to [lindex $arguments $i] }
            -datapath_only - -ignore_clock_latency - -hold {}
            default { set limit $word }
        }
    }
    puts $out [join [list $command $limit $from $to] "\t"]
}
foreach command {set_max_delay set_bus_skew set_false_path} {
    proc $command {args} "constraint $command \$args"
}

eval $env(SETTINGS)
if {[catch {source $env(SDC)} message]} {
    puts stderr $message
    exit 1
}
close $out
exit 0
