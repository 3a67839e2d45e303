(list
(item
-one
)itme
)list
