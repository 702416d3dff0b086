# For JasperGold: jg -batch adapter.tcl. It was never run: this project has no commercial tool. FORMAL is what makes the rules assertions
# without reports; yosys defines it by `-formal`.
clear -all
analyze -sv12 +define+FORMAL ../../sv/tl_checker.sv ../../sv/tl_checker_ad.sv ../start/adapter.sv adapter_formal.sv
elaborate -top adapter_formal
clock clock
reset -none
prove -all
report
