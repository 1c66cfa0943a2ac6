% The count of visits.oz with a cell that stays at one site: an exchange at another one is a request and an answer, and no site has to
% wait until the cell comes to it.
local Cell Add D1 D2 D3 D4 in
  {NewCellAt 0 Cell 1}
  % adds one N times, and then tells that it is done
  proc {Add N ?Done}
    if N =< 0 then Done = true
    else
      local Old New in
        {Exchange Cell Old New}
        New = Old + 1
        Done = {Add N - 1}
      end
    end
  end
  thread at 1 D1 = {Add 5} end
  thread at 2 D2 = {Add 5} end
  thread at 3 D3 = {Add 5} end
  thread at 4 D4 = {Add 5} end
  {Wait D1} {Wait D2} {Wait D3} {Wait D4}
  local Count in {Exchange Cell Count Count} {Browse Count} end
end
