# An installer brings an application from its first version to its second: ten files and a key, in one transaction.

# The first version, plainly, with the two bytes "v1" in each file.
p1 CreateDirectory "\app"
p1 CreateFile h1 "\app\app.exe" w - CREATE_NEW
p1 WriteFile h1 0 7631
p1 CloseHandle h1
p1 CreateFile h1 "\app\codec.dll" w - CREATE_NEW
p1 WriteFile h1 0 7631
p1 CloseHandle h1
p1 CreateFile h1 "\app\core.dll" w - CREATE_NEW
p1 WriteFile h1 0 7631
p1 CloseHandle h1
p1 CreateFile h1 "\app\fonts.dat" w - CREATE_NEW
p1 WriteFile h1 0 7631
p1 CloseHandle h1
p1 CreateFile h1 "\app\help.txt" w - CREATE_NEW
p1 WriteFile h1 0 7631
p1 CloseHandle h1
p1 CreateFile h1 "\app\icons.dat" w - CREATE_NEW
p1 WriteFile h1 0 7631
p1 CloseHandle h1
p1 CreateFile h1 "\app\license.txt" w - CREATE_NEW
p1 WriteFile h1 0 7631
p1 CloseHandle h1
p1 CreateFile h1 "\app\net.dll" w - CREATE_NEW
p1 WriteFile h1 0 7631
p1 CloseHandle h1
p1 CreateFile h1 "\app\readme.txt" w - CREATE_NEW
p1 WriteFile h1 0 7631
p1 CloseHandle h1
p1 CreateFile h1 "\app\ui.dll" w - CREATE_NEW
p1 WriteFile h1 0 7631
p1 CloseHandle h1
p1 CreateTransaction h1 0
p1 KvSet h1 "version" 01
p1 CommitTransaction h1

# The second version, in a transaction: CREATE_ALWAYS empties each file, and "v2" is written into it.
p1 CreateTransaction h2 0
p1 CreateFileTransacted h3 "\app\app.exe" w - CREATE_ALWAYS h2
p1 WriteFile h3 0 7632
p1 CloseHandle h3
p1 CreateFileTransacted h3 "\app\codec.dll" w - CREATE_ALWAYS h2
p1 WriteFile h3 0 7632
p1 CloseHandle h3
p1 CreateFileTransacted h3 "\app\core.dll" w - CREATE_ALWAYS h2
p1 WriteFile h3 0 7632
p1 CloseHandle h3
p1 CreateFileTransacted h3 "\app\fonts.dat" w - CREATE_ALWAYS h2
p1 WriteFile h3 0 7632
p1 CloseHandle h3
p1 CreateFileTransacted h3 "\app\help.txt" w - CREATE_ALWAYS h2
p1 WriteFile h3 0 7632
p1 CloseHandle h3
p1 CreateFileTransacted h3 "\app\icons.dat" w - CREATE_ALWAYS h2
p1 WriteFile h3 0 7632
p1 CloseHandle h3
p1 CreateFileTransacted h3 "\app\license.txt" w - CREATE_ALWAYS h2
p1 WriteFile h3 0 7632
p1 CloseHandle h3
p1 CreateFileTransacted h3 "\app\net.dll" w - CREATE_ALWAYS h2
p1 WriteFile h3 0 7632
p1 CloseHandle h3
p1 CreateFileTransacted h3 "\app\readme.txt" w - CREATE_ALWAYS h2
p1 WriteFile h3 0 7632
p1 CloseHandle h3
p1 CreateFileTransacted h3 "\app\ui.dll" w - CREATE_ALWAYS h2
p1 WriteFile h3 0 7632
p1 CloseHandle h3
p1 KvSet h2 "version" 02

# The power goes in the commit: one call of the disk passes, and the next one finds no power.
cut 1
p1 CommitTransaction h2
restart 1

# Nothing has changed. A second process opens all files, and finds the first version.
p2 FindFiles "\app\*"
p2 CreateFile h1 "\app\app.exe" r rw OPEN_EXISTING
p2 ReadFile h1 0 16
p2 CreateFile h2 "\app\codec.dll" r rw OPEN_EXISTING
p2 ReadFile h2 0 16
p2 CreateFile h3 "\app\core.dll" r rw OPEN_EXISTING
p2 ReadFile h3 0 16
p2 CreateFile h4 "\app\fonts.dat" r rw OPEN_EXISTING
p2 ReadFile h4 0 16
p2 CreateFile h5 "\app\help.txt" r rw OPEN_EXISTING
p2 ReadFile h5 0 16
p2 CreateFile h6 "\app\icons.dat" r rw OPEN_EXISTING
p2 ReadFile h6 0 16
p2 CreateFile h7 "\app\license.txt" r rw OPEN_EXISTING
p2 ReadFile h7 0 16
p2 CreateFile h8 "\app\net.dll" r rw OPEN_EXISTING
p2 ReadFile h8 0 16
p2 CreateFile h9 "\app\readme.txt" r rw OPEN_EXISTING
p2 ReadFile h9 0 16
p2 CreateFile h10 "\app\ui.dll" r rw OPEN_EXISTING
p2 ReadFile h10 0 16
p2 KvGet - "version"

# The same again. Until the commit others read the first version, and no one else may write.
p1 CreateTransaction h2 0
p1 CreateFileTransacted h3 "\app\app.exe" w - CREATE_ALWAYS h2
p1 WriteFile h3 0 7632
p1 CloseHandle h3
p1 CreateFileTransacted h3 "\app\codec.dll" w - CREATE_ALWAYS h2
p1 WriteFile h3 0 7632
p1 CloseHandle h3
p1 CreateFileTransacted h3 "\app\core.dll" w - CREATE_ALWAYS h2
p1 WriteFile h3 0 7632
p1 CloseHandle h3
p1 CreateFileTransacted h3 "\app\fonts.dat" w - CREATE_ALWAYS h2
p1 WriteFile h3 0 7632
p1 CloseHandle h3
p1 CreateFileTransacted h3 "\app\help.txt" w - CREATE_ALWAYS h2
p1 WriteFile h3 0 7632
p1 CloseHandle h3
p1 CreateFileTransacted h3 "\app\icons.dat" w - CREATE_ALWAYS h2
p1 WriteFile h3 0 7632
p1 CloseHandle h3
p1 CreateFileTransacted h3 "\app\license.txt" w - CREATE_ALWAYS h2
p1 WriteFile h3 0 7632
p1 CloseHandle h3
p1 CreateFileTransacted h3 "\app\net.dll" w - CREATE_ALWAYS h2
p1 WriteFile h3 0 7632
p1 CloseHandle h3
p1 CreateFileTransacted h3 "\app\readme.txt" w - CREATE_ALWAYS h2
p1 WriteFile h3 0 7632
p1 CloseHandle h3
p1 CreateFileTransacted h3 "\app\ui.dll" w - CREATE_ALWAYS h2
p1 WriteFile h3 0 7632
p1 CloseHandle h3
p1 KvSet h2 "version" 02
p2 ReadFile h1 0 16
p2 KvGet - "version"
p2 CreateFile h11 "\app\app.exe" w rw OPEN_EXISTING
p1 CommitTransaction h2

# All has changed at once, also for the files that were open.
p2 ReadFile h1 0 16
p2 ReadFile h2 0 16
p2 ReadFile h3 0 16
p2 ReadFile h4 0 16
p2 ReadFile h5 0 16
p2 ReadFile h6 0 16
p2 ReadFile h7 0 16
p2 ReadFile h8 0 16
p2 ReadFile h9 0 16
p2 ReadFile h10 0 16
p2 KvGet - "version"

# And it stays so, whatever happens to the power.
crash
restart 1
p2 CreateFile h1 "\app\ui.dll" r rw OPEN_EXISTING
p2 ReadFile h1 0 16
p2 KvGet - "version"
