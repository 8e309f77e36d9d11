const p=load("A1");
lyse(p,95);shake(p,10);
sync();
wash(p,70);spin(p,60);wash(p,70);dry(p,300);
sync();
elute(p,50);store(p,4);
sync();
seal(p);
export{};
