% CTM 4.2.4, fairness: a thread that never ends leaves the others their turns. The line comes, and then the limit of steps.
local Loop X in
  proc {Loop} {Loop} end
  thread {Loop} end
  thread X = 5 end
  {Browse X}
end
