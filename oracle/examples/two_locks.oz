% Two locks that two threads take in two orders: where each has taken its first one, both wait for ever. A run seldom shows it.
local NewLock A B Twice Work in
  proc {NewLock ?Lock}
    local Free C in
      Free = free
      {NewCell Free C}
      proc {Lock P}
        local Old New in
          {Exchange C Old New}
          {Wait Old}
          {P}
          New = Free
        end
      end
    end
  end
  {NewLock A}
  {NewLock B}
  proc {Work} local Done in Done = done {Browse Done} end end
  proc {Twice First Second}
    local Inner in
      proc {Inner} {Second Work} end
      {First Inner}
    end
  end
  thread {Twice A B} end
  thread {Twice B A} end
end
