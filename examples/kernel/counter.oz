% State that only its procedures can reach: a counter is a record of two procedures round one cell.
local MakeCounter Zero One A B in
  Zero = 0  One = 1
  proc {MakeCounter ?Counter}
    local C Increment Get in
      {NewCell Zero C}
      proc {Increment}
        local Old New in
          {Exchange C Old New}
          New = Old + One
        end
      end
      proc {Get ?X} {Exchange C X X} end
      Counter = counter(get:Get increment:Increment)
    end
  end
  {MakeCounter A}
  {MakeCounter B}
  local Increment Get X Y in
    Increment = A.increment
    Get = A.get
    {Increment}
    {Increment}
    {Get X}
    {Browse X}
    local Other in
      Other = B.get
      {Other Y}
      {Browse Y}
    end
  end
end
