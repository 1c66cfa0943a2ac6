% A tree of records is built and summed; both go by recursion over the shape of the data.
local Build Sum in
  fun {Build Depth}
    if Depth =< 0 then leaf
    else node(value:Depth left:{Build Depth - 1} right:{Build Depth - 1}) end
  end
  fun {Sum T}
    case T of node(left:L right:R value:V) then ({Sum L} + {Sum R}) + V
    else 0 end
  end
  {Browse {Sum {Build 4}}}
end
