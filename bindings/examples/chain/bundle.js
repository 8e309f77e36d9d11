const p=l("lysis");function w(t,n){s(t,n);h(t,37)}
w(p,3);
export{};
