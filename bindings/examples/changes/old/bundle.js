const p=load("A1");
lyse(p,95);mix(p,10);
sync();
wash(p,70);spin(p,60);dry(p,300);
sync();
elute(p,50);incubate(p,120);store(p,4);
export{};
