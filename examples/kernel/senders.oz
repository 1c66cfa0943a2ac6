% CTM 5.1: many senders at many sites and one receiver: the messages of a port stand in one stream, in some order.
local Port Messages SendAll Sum Zero One Ten Thirty Total in
  Zero = 0  One = 1  Ten = 10  Thirty = 30
  {NewPort Messages Port}
  proc {SendAll N}
    local More in
      More = N > Zero
      if More then
        local Less in
          {Send Port N}
          Less = N - One
          {SendAll Less}
        end
      else skip end
    end
  end
  proc {Sum N Messages Sofar ?Total}
    local Ends in
      Ends = N =< Zero
      if Ends then Total = Sofar
      else
        case Messages of M|More then
          local Less Next in
            Less = N - One
            Next = Sofar + M
            {Sum Less More Next Total}
          end
        else Total = none end
      end
    end
  end
  thread at 2 {SendAll Ten} end
  thread at 3 {SendAll Ten} end
  thread at 4 {SendAll Ten} end
  {Sum Thirty Messages Zero Total}
  {Browse Total}
end
