" Schedules by their names and first lines, reports by their first lines.
autocmd BufNewFile,BufRead *.schedule setfiletype lardschedule
autocmd BufRead *.head if getline(1) ==# 'lard 1' | setfiletype lardschedule | endif
autocmd BufRead *.report if getline(1) =~# '^report \d' | setfiletype lardreport | endif
