" Models, and scripts of explore.
autocmd BufRead,BufNewFile *.als setfiletype alloy
autocmd BufRead,BufNewFile *.explore setfiletype explore
autocmd FileType alloy,explore compiler scenes
