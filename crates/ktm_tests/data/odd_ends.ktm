

#
# comment

 
p1 KvList -
p1 KvList -
nonsense

nonsense