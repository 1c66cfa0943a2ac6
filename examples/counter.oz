% State that only its procedures can reach: a counter is a record of two procedures round one cell.
local MakeCounter A B Increment Get Other in
  proc {MakeCounter ?Counter}
    local C Increment Get in
      C = {NewCell 0}
      proc {Increment}
        local Old New in {Exchange C Old New} New = Old + 1 end
      end
      proc {Get ?X} {Exchange C X X} end
      Counter = counter(get:Get increment:Increment)
    end
  end
  A = {MakeCounter}
  B = {MakeCounter}
  Increment = A.increment
  Get = A.get
  Other = B.get
  {Increment}
  {Increment}
  {Browse {Get}}
  {Browse {Other}}
end
