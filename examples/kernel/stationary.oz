% The count of visits.oz with a cell that stays at one site: an exchange at another one is a request and an answer, and no site has to
% wait until the cell comes to it.
local Cell Add Zero One Five D1 D2 D3 D4 in
  Zero = 0  One = 1  Five = 5
  {NewCellAt Zero Cell One}
  % adds one N times, and then tells that it is done
  proc {Add N ?Done}
    local Ends in
      Ends = N =< Zero
      if Ends then Done = true
      else
        local Old New Less in
          {Exchange Cell Old New}
          New = Old + One
          Less = N - One
          {Add Less Done}
        end
      end
    end
  end
  thread at 1 {Add Five D1} end
  thread at 2 {Add Five D2} end
  thread at 3 {Add Five D3} end
  thread at 4 {Add Five D4} end
  {Wait D1} {Wait D2} {Wait D3} {Wait D4}
  local Count in {Exchange Cell Count Count} {Browse Count} end
end
