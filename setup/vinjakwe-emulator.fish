# fish completion of vinjakwe-emulator

complete -c vinjakwe-emulator -f
for word in swtpm mssim listen owner greatest
    complete -c vinjakwe-emulator -l $word -x
end
for word in unixio state record pid
    complete -c vinjakwe-emulator -l $word -r -F
end
for word in stdio startup only-device daemon version help
    complete -c vinjakwe-emulator -l $word
end
