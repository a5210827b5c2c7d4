" Comments of PDL, and `:make` that checks the source at hand and goes to the refused line. Where tools/ of the repository is
" on the path it says what of the source breaks the rule.
if exists("b:did_ftplugin")
  finish
endif
let b:did_ftplugin = 1
setlocal comments=:// commentstring=//\ %s
if executable("problems.py")
  setlocal makeprg=problems.py\ pdl\ %:S
else
  setlocal makeprg=pdl\ check\ %:S\ 2>&1\ \\\|\ sed\ s=^=%:S:=
endif
setlocal errorformat=%f:\ refused\ %*\\S\ line\ %l:\ %m,%f:%m\ line\ %l
let b:undo_ftplugin = "setlocal comments< commentstring< makeprg< errorformat<"
