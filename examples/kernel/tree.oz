% A tree of records is built and summed; both go by recursion over the shape of the data.
local Build Sum Zero One Four T S in
  Zero = 0  One = 1  Four = 4
  proc {Build Depth ?T}
    local Ends in
      Ends = Depth =< Zero
      if Ends then T = leaf
      else
        local L R Less in
          T = node(value:Depth left:L right:R)
          Less = Depth - One
          {Build Less L}
          {Build Less R}
        end
      end
    end
  end
  proc {Sum T ?S}
    case T of node(left:L right:R value:V) then
      local A B C in
        {Sum L A}
        {Sum R B}
        C = A + B
        S = C + V
      end
    else S = 0 end
  end
  {Build Four T}
  {Sum T S}
  {Browse S}
end
