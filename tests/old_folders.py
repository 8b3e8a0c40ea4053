"""Folders that the program of folder version 1 made, as bytes: for tests/upgrades.

`trimmed` has segments of two entries, of which two are given back, and a record of that; `replaced` a slot that was written anew, beside 4,495 acknowledged
positions; `never` topics without an entry, without a subscription, with neither; `sixty_four` as many topics; `none` none. Each has its files, what
`inspect` of that program printed of it, and two of them what it said of each file with the last bit of a byte turned, and with ff in its place, byte for
byte: what it printed where the lines are other ones, the fault, `=` where it said the same, and null where the byte is ff already.
"""
import base64
import json
import lzma

OLD_FOLDERS = json.loads(lzma.decompress(base64.b85decode("".join(r"""
{Wp48S^xk9=GL@E0stWa8~^|S5YJf5>L9Nj+FbxWh>C|}$E%|0j=$^IOj#xQFFyTK@>-*TBi>j`GE4Dv?3;-@HRUGYt&kaRB>%~)N-
soT8z<H?Pw^$>jQA4Q!XzaL+sQ(!Y<bJq>!z0anYLXsnRB!4d|*G;4m<MaBx8^o6JLCZQ>())Lznt{GVp*(w;XNn{2nX=f)^o27PZD?p2*G9S||IFPJN|LmZ(c<g+e7Mh8b@8$ZkyBGFJD`T*O}JE#
^TX&Q0IO-U5@X(;^vH-pC9RB#0|BUc+W|MG=2OMQ^El+F#2dv;!J>Pp23ueq^MF2Z#;+oB*%>Ca!ZdMIE}QmE27U10<1L<Ic~J{v?^4*5528^vZ|h*rEVYMpOFZr!gqHE&q3vSw(rRZxx?ns{_ELf*
^RoH1X_<V4aA|R?ZvOP}`ph87_bThx)D53IRYRvBS|<_7}0Mc~BthY4I;yJI&ijV?j1!9c$Z>dE`0}R+m=Xw-XJJMAS)K(rXmXn9D44^1(d*7k4ta?E|>x2x-
}DA>oWbGKB(SSBnNg+gn)r)FJFIV7@V>D)(~Xup_e~o3@6W-mOX?QrlmP9qOhKmQT`mNcTAFsat>-^`a!q+gw(da#_qU8LNwY9(5@ytZ`e4h0c(GzS4UVhLeU`&Kfw1<v+Ip229h-
>?qj1lM3*bQIs31!nJwXAZciqxaqAPxKbVr%S5$NE~aV=!9{@9K&1+%`!Woz$Mq5xN7OX@>H@I#ASP$I@jZ&-
jZR;6*}Ng|rEOb^7~#)M*Ty|xdK_LS(9n?rZ9lW4*$0?vaAkw>>}r#%5X8Ru0a}x?0A`R
2%i472J}kJQThS(NLW42?5g?`b3OxQNhVk-
s(P#|2#PAn>q8A4`6!_j?lDQyLT=#7PZ`?jqm};B@A%9UhnD%&B9kapLw#yC%Nv}Q`R6FJ+oR9U(GLzeN<l)@XR1Buvn8xz~wP5xs6MMZ3OziAiEz0*;tCA=dR2)x?X&Ceyd;eGr!Oy#t5#Il=Z@B;
K6!VeT=qVI-9-1vY764ow$2aOF3=xTS)gNaxL;Gi9ZkHnd5Zu<KPEe~)H?!`FAg^2_gyONa$sl1C*E43hC0f8KJI)7Sh-
S=V=>HN>kbW4d@4%X(q+*3Ek1O~!LZPsn@Xsv5C~5L#m6fgguLv<mnfJ<((TDcM9ZOq)%z>&D4KxnDHbKIGXeqf!wZD$o?kAHiFym9Sq*V$Ayxl60q+dJHe6-S4U2P``N6ruwFf-
cL1<Y|{fW*y<w}@e2zl>0BO8(one#jh?@ki}_--7i(mO+C$cTjdZ+4T_cEc`G_f0;vQRbFDg_$pn~??f}qVXUuf#*<qk^VX#fpoWZ3!JKum>+mJ^l<qosf6*fdv_N|eowd4B0f&ch280z9x0vSv0=M
w=V$CBF9bYC8xCL2s&QmLQVTvgY4f^FjIpm^SG1EH~ZcdgbPViwnh1b6owfF5N*;0_wyaeA)$K_k0*m;qx|MD~O@B-WoVg7SG{vBqFGI><Ac7wyY=-
<x>yNV$ArP188_^@DOpg;zX_I+mIf^#LITCqjJEEY2o>b&XsN&u)9`ygGKC+qr#ddG}L@jknp7Xfs`;$jq;pQIwf^;!=4ZAuGGrUlByDRUl(mZdPQPS)^A8I&|c(~OI8Jb-?&=j+;-$OK17Q?-
Sx7@9c$v(f(FR;b6T2*Z-u5SahKTUfnP4*>cD?#D_VarQKR{73O4*R$vgR;kB-9f1X^Yk_G6fu70Xt@?6s7AC8_r#5AN2j!arI>&nI{<}9{PffF~mM$Bw-
0ei+#yrPnx<TtTOi%WGUEMCfqDmtL+mrHwbg>sKpAe{4e<t_iOtg<*nOOxnvNKQ|)%>6POLl~%B-9ZXPUk}K@AsV8vGPgu-Vj1bnBg%&hxv0(m(vv`hc6u}c`{<$t{t7+-
P>+nv_Wig!kJ48I0gY*^w6ThKe44sd&E&#9`#0ZQG!hqyA`rnvaJ_!w#YL=cVejQW66RsYfy*QVKPogSjy>uoK2>gwTtuGintRKG7kZN_`fh4_b4R;Ep`YzCKk?8-
y28|RB$%Q^Vl{@OKbebRgx!CfD@tMc{6rlwFb46cphA|4?*q#{-eCMu)=iq3zZWtexXKUtUdK<v!a$?ftKf-o~1rDYklJ`Rc*fa4#k5=he)9QQBR%>T{1}u54s&tO9g-
M@|p2soYc8TQqOpgu&>cK1B9AcS`4-
<Uh~~D`t*}~m!GHr_oseiB2=0WW=4(6uLJ@z0nc8HrWEXBPO{cXlvmLy1VX0S47ey;oU=Bel*s{f@^?&4tAMG8Na?(G&sc!`1NHG2t!fPcO`tN;FKwHiw!rSEs)%vuANq-SHVb^Btt<@`nA@yjO>`z
SmF|8@8uRSyQH+{JQ4v<@<k4=Cp!KT&{wTikdKj~f4j3!#%rM^hz@&Z`c^-v<B>T^meVDxGtN>H($+O|Gn>2v-
ZJH}ohK7>S$?wp~dS+kYpG*Vc`r`XYIG8W44GB3br|A|nV;XgCWh^}kAH^rgp2~*SXTxTFZ}zn>fM~t*r4ey}g2D<oMin;dvFa4yzuGt*PMvJy-
?b~%;YNY3Jx~tusS~htvj3@JqD3HaWP9kgm%s(i4t(<aUN2UrO)dG=E}Gmt8Z%jyetyxx6MUH#3=oD&)GX=HbLPn|U+TBWYjyvF{xSBX0i?u3OFXqB;ZyBUyrbM8JqHZ=wfN+Tr8sYhsVRvkK~c28O
StA4$hHp*@|MT}t6;sA2{Nds2e1#$P>mGCR*;i8Z0xZ_{WWNKBd9&sd_x<;y&glOW}teoPApPw^BSf2KGXnNmEPIT;LwQHk&($-
jezRvj%#a8x{;N^yumNkAXcTV00GGllSVkr8=2IHBs}<!M_zzBx-
@_HUPT#QA;1|_@6vG_E+7v$VJZS>CEZp1Ba1HpLolvECjAs;$_;XtN_e6t&~hFyeOT6Vs>@T!wSKLv;t)|_wgu|_`B)VgWa;i$W%mEpcwR9Z(RE9)?qy}-
@b$0$7?NEbSd3T9Fh|6+3jAFY`zH(zvJJCv4SW!gNs<Ul&<n8$GLPwmzTtW~m0%SH3q<MsBRG{qM4MsF?7P8BcQY|^w_emKAHjwr0`Y?oSCL92yc)#AFBac#yXqATI-
U**j+i!KbPxGnVZ*DM_7(qoiOZ6i8ECu_1C(638=G9S%x9Q!<51@vpU@^C<2@uMGHEAa{cHJ70JTeR;VM!Cwt#e$VwzY|-
Mp@;9(>>UOgL;eXVk}~R`(+G24Qdlm&&)Bv@|WNdXL;273eEsD=?{HwRhZfahP(m+uQGUn|(#^Pf|l&uky*ljuqI%>QL-VgJi9m!Th7nIi^E#^f0a@>}v%N5<bMYBNmHxj}+M+&^eO7xM246?6*d{{
He<Sf*k^;2J*FVH1z53$~bNDI?<UA{>q{Fu2qNg$;uC<WvPfP=y#%+<iFlELNWoFe}hAKIk2#rKK7{>%r}k{n$+E2#T^hndnWr`Z(C2JI#*9~Hk2$MSqL<&E$N^iKH{!e%-
5?z8`J%7m=`aog)Y;QzrJ+s6A8Wlbi-u5(n8b_Gg)@DvD?<HbEVWZR(x+1P)`bpPJPJ;c1@dylaT1-cr`-!6rkj#mpRY|_qmwh7gKD@yf8qM-
P}&IBe?>U0xJL^u8Jt&{rViE(c6kGP&TSGs#0D9DuPPOf?8c5K`~s$U&_v4|K%7d5|-LA-kh@S4R!~SG;wB!Wzg=IZmPgXlEcPNKUaFG%SttS9&TD0YOAMl68FJAwbU%t8XDuKJAC{WCEQs)TTvnz5
n4+Y-KpNslN0`N<F*PJQ>(|MccaAX>PnM<X41L6)Fp`k_zLbxF5V>qYHxNcYb@JZKMc$<3*)-wDk{lLJ(zfXw&Kyd6wZg>5>Q{7B1@=7Rvr;!VxNz0?kOB;ifXk@1O9V-Pk<`gA_$WK5-
)lB>}g?lyq%OpBaI6JHxV}#(`$TSjaQ2&+6LAZ7T(>~WMl~(|E<)~e`ZT_*zB_j_brV%P|pgZG`mWH4K@d42gr=)2PG%3w#R*f7jq0VhrlQhD=zwOg);<&8CFE5Bina61$Eg^j^V$>EktJO2802Wdw
jxh?!$aR&`>OENT>VXHvUWht8Uw5ZHOxt=M!Ryfe9r$dw0ILMDluejcw=Gsb|kJr2c>e1u@1Al=cMGsfNhOVzZvZO9teCZX&Qio|yX6ttSKpu^pV4o~e2p%YdCCt#YHW59vqaqAn{c=;n>S3mf$aoJ
X--DrrJrKi;HgkjJDLEAwZ$YR}O)?S`<P&Q|*9bnedF&(mK4^p}#C7wxyXn^$hhHiLdoPunr80$VhTC_s6nkA9-
X9XKdHc~@|2#RUfCOc|>d&+ez@dof#Gr5AcPz<Rj^@B#H&x@b(TRjQ#(F|r_}Lj$$!zk7}&%rKVo>}8N<0B6xT1eHQ@U_EZzOlfqOpLW_4F8>FRbyH?T
3)zVsID(!>IYA<TSnVY$F7H?9#Oj0mEn}=
0Gs)Aw3(n4cqRccs;iq&N!`TMCF1Zjzdz-FKlhQWt)I_k`bB1JiEsgWniK^58grj?ZF`{;-iT`IV=Sy;Fe|O+IoyUu=j;%Ey;B;ITyrsH?5eB<!PZT;52w1#1jE^^*7IL|UDBLFJPP-
~)mtS>LOoztkTmwE_FB2g#Inhe|n?0N5;+n*}#U%KRO?YWu+3e4$9tGvITST*#Bkr{9VXOhqA>4t3S!_yi7M<w>vpZh<h@ZSFcan~ZH<w!YTus=b;4ew@g3oQxF>1qoAx~GSXrR3ZFd!etyLNB4JW{
faKztFaz^H)%7X9=-0W8Nm;s`9J-RN10BfL&F60~-
(2%~H4mr<^?eJ>In`CC$K=IWZ_)(N(6wdSAuQYQ4qUT(P}Qv_)UsBbIL&m3y_deP8c5&<Q|anRi18n}QsVZK^RM|H0i)_@NY5V5kjCa(kws1eFgaANrGIgEF}&P6aWYnbMFzYV&9vWt)OLOkYk>Agg
Ul#&)YgNbTFuZ!dlwBSt^x*dDnJg6^-
vB&M;=9Xg0p^D)9nfHfH5KIk|tn>t*ob$6nIaN$^d?k7#67g57U`GHB=(I9|{%FB)l$mV3;f!XhKI|2p>D(}SngPwYn3;j8rbxRnX`KquW39h*M|6LgiXTL-UKxX_I4x516!LWw6!8+2Io3&UWeOmZ
C0=J>+NlF({ObiN!vk|zWegwy3evUC)8NO$sR{Wr3LQXIS?@ARivpz^^9?wF6h*I4NJ;wM2lW>-r34jI@2=j2N>Q4eFZE@X2OI;xXffBgLeC_E44~iiGbbCnZx45eJ-_rn`MGYNd}agZ-1VBY-
TYvDE1Mf2o1xFQQ_9)>tT-44w}@P`DR~9q<m>20;;Q33YxH0o|Et$_3JjTUG9(fnxW5wBM-OrIvaDrZRL^CgS9x_-WxMS@L$j`@+%@hP6n*LTxdvUJWIRA8D;R?(!MsW=boB|R(djEVMv}nUxD%uu-
@Y?=(Q81w(NV3~i6GrnkxUf*`oZy5`^kCuR1G@RiK}GPO@je+`u^k(4A*aeQZ@_q5ssN#6Jydgy8hi5G$+Hp(Y>iMnTvyp=YkCob54-|87C}0dL8qts^J2w-
m&Qj`DJ&v+%x?mo;Mz@Svh)nNNVHoy!2qUxHm>Z9j;9jlHlFNHDt1MDsU0JdByV4@y101|0+y(JONt!kmtI*hw=sLusBamclAHs(OUY3xO{L1+azL4PvGwl-=KLCl5OfJ0{DU!yVK(t3Yp42g;>mW-
v)p5XnA(n8oM$<ufr8QnexZb5FsCmxPZrIg7FGQ&ay59F0=;*)-cJda$DtYJL8a+i;C9N|9;7C{7Zlu)A{+*%hVWL8#x%N5(ma`SoWw;7Qxt}`4H_&F9yrohgY-
&Bq1vD>=UXle7#v{lmKquf7Vin9Q@lI!xlJawoDF`m>)hFx+{7qnRio9t#+9mo(9)W5t>{bJ=@dnrvMLe%?8$m277Bh?GJv!p0g#*{g5W>5ZhMZI8<<6Q@IXuf!*9JkaO@$X}}My^?@8`cva`9u?C~
Q882}C!tUvDXMMuvUenihsyz4V8xPwyR04oTypACqq*)uACf4%JKc2rtW46Rc(*DHF7^!1k;EyAo`YXjv;r4BU($d_GX5M+|uK{AYAtHP%;#89QLd-TOy-
16o^kmOlj{G$$ym>o*n^}Q{8e#?>_zzUgFEc5=haKV*ykSH;CVn}|;yP>WlYu~0wJZwLfHg{#uGcqyZSw=-wTs~jvpCDiR!V8GnD>nic*R#C?EB3r2{)M@kJ{(?_ozdebC^lpfBwXT7_9-
07;~{sqZ#P101TV%%QA5Yc2hLTzwg2DqVidI(jElv=y^*pOgf}L%F6k}-ICtUTVjN$mx}t<1SMP1CK2<|xj)N<@hq%wydOwC<%s}ZT{uhbaX$-
V!S9lcgJ_xVgXH++!{*w+2%X|Yca+<f=7v|qRBSl==;%pIJk>k%Djnu;%_y;ZCx>t=Q)AjPXV!IJ5X@iGz2=i<@TmJ5j}{)E&>?+t=ni(bqq6NL(#^NtJ|Hnrk5#Cf-
wn$j!n8b$IH!S?L93Yp`=6OMbPS)#Ba|2JMI$6N!EO5|>aZE;*0aH^Z}tb`2ATCDw6fF>`?70|DO-
gm*loRe;jfvcXuV>e8oiwGA8@W&5^W{0hnAajkhgz_oYLjAC!VSH0p&!35#>~$O51D@ej2E4<cQ<6ovpeH^=dNhV9)_%r6B5UIQkB#pBO8oW-dX)(NkyHeIOiU@hOT+hahSI-bCu|daPGPI*O+;9#W
n2OX@31M^Dh%cK`4?bc`>NpMAbzy!R9Y`~*l?s`q}tWcWwp*g-
`!^jAQik6);BDIMd(#h}8(o8x#|X^REo17M2P3CO9xS~55R_^7wW9(c^@n5coR!(33GB@miY@3MrUu><vJrDGbY1pF7rK=^zQu<5b@Re2bIAYq|#sx6J7C>pb8M+N6Q0n))Zubi5=$XJ>N-
|iu7SGbbFz?LN65+EIJ#Ss3!MJM=`77Y$@nPIyrt5oUSK%1K!Zp}JE;H)E`wzSyg?sb9MSet*SQ=sz>(upG;X>^Ac8_1olNGFFswK$!WdVk-kX$;d+$+%$S`-k_^8LvXbUKZ3jbv|VV50Px-VIl=lX
GTPEJa;ILmKbx=RW+a>>`~nh`rZh?)fQo10e6312mA<>Cyw^Y4&srsaEb9++f5O*0p9m<EE~0p<5(}NXO}5<2Dih+SnFp2g%wxOI>oh4ll$6{%pD_=*uy(LoTtPZ8?0gr^yspHN9fAuCa@%`8Plru?
O0TP=U01R*mbkON-r~CVuIP%N@G$hnkfYnJ)O9YO}%Ng$YT`#AAa~WzIo3nlcF=)%H{)TWNmNbahMF70Iw0C4{O-w5@Eka&eyO-fM?LX<RaAs?ry0Bl<jY4{hJ=0;#w9pwZu>H`?VB@Sz$_bLM539X
}fp+zxk)`;$DgGS<EgksQ}qePh!gJyfJP$y;xlgKlB7FKcF{$U&!In!5O+@gdazTbW?c#e}c-3E?;;mMk(yHb+tUx@@tb8s^Kb+6#<`aouQXs;o1F}PPza-
6E8O$;L+||GY>4HhyG>C1}>H%(kGhi_&i*3TjTu|q)y$wA*5;@InptPK`34eecSUIOk`T4rP@FD`{`Rye#F}`Bjo`{Il~kt`ehWsus?MrH$NJ}p_R3jk3n#<3+5`UDkB9cFWlDHh2+2VksB%LgHM<n
6d~hbgdrAG2)VY;<|*-oul}9*&t_~QdezetTImqTi1DGL4hwc^JnCqRvKcpJ0@CU8(~%&MpDX3;mP|JIuKlEQJ}L=|?c#8pT^X_;(RMTIjC4mQwvGZKi_K-pyQs_=#Up5hNl*NOX-Hk-
rktu>AhOIB-UQJbeU=`>PEH+ev9x{<U=RJXQDUF4#mN4!QiX22W;&{xG6Lcq%$GHV|CSCt1Rrq10H6{=;(=Y65ijzd1>Wv(v$P}Fi%Iq6NR?!`Ud);Cvl{;o%Y*rP$?T1RPL}#kyTPyRH8(`P88>U@
(?yN_3qdGQfMq&N0@fFLFIB0T)?EqYBWe#{{CwW~Oq(}Hbqi6-a0g3y(O}u3jbsx88ua>%-
a3>07aUxE_$51&jWT(&38zX52J8)%*lhMgR9`X|i$o$@$tD?;9^yw)hrzQ^N*N|D*$wA##kH7uw(yY|4cL@C2Un@)zC)Zfo*Ir(pC-tZW_7{NKRRU%knAxD5aDJ0PfO8$+)0j2uUnxW-a6%O>2-
?*(%fR2`=opr8vNx}Qa%4bX8O^Ds6-?i{g#xSzGFyX^SdtE0;yUm0R<e}k8FevvbgiS=I__q+_^Fmk>|6m2X@Z@MQ4&BI-
E^p^7s#Pes|duwTAUzPrjdgz|o6Oe}Syd#RM3^d;l7;teINAY$J;r3YQ$iVYX$$^^CvG@wWALEjHLeP!dd3rHj`SB!%2jK-u!^Bk!-{5oa`J8pg&-
vSMwZ98k~q(}6GAX*_TylFNJ}CQGv)jSbJ?!w1EOm961UF6%>{HBOG-HPIc`aM7_abl!QUKaR5kwnt1imZ-%&^Xk^h-gCa3QoHVp$fle%h0cQAl{^thLns0>2{Dl~J>kf-
@>gMLwiXY=M=&_awo)bWr7Q`BrB?LbsX@U3H@lQ#JOifm+sTONE2({gu~3BN9`@1N?WbN2FnC!_LyR+lKvec;PL);k0R=gHozAI$A?*+${5G8bG5j&dKTnB`KB#>>+Q24i0&C7GB+WLpTRu=e30rua
X2zch?jdP#m7j(YqO!g{5eg_nGHDCYpwvj)lK1RmGGzgH90KQ44rDs9Hd57Y$RPp48!!ZJBL+`RG6`xH0txxH4OA}L^a~dvU-
G#aRtfCzfQ$z;D&M(pDJAUdifoqW34|2d`+3WUhB%qESSu<e%Rv&Xry&PkSRVh<ZoFESdSao$joXRi7)Jx@l5Zl%Em*{44&1K)Ux^P^*6j`Mj@n3Z8oso7r+ZzAGGIZV;03?bDr{OTjvc20g+Xfj2*
{w$M-L9X%LGmg7^;GeJqD%r<Ya!z&m2UhUG{3vFZ$fS_j`5z2Niw68lEuptMzBBS$l4vG`gATkaYe(4b`bjN=CitN1mzjS-e`({<>f0+Ckm-VZHZ{BO3C{3T<pSnWZK*<Cx?R3QMpaf_6JaR1DZIR4
F$cZD)DUs47P$M%axed808+-#7V84yu{k<zhPNE2TB$<pRl8l*}tWh#Ea6?B8v~wxZY0+4gDG#Id1H=H6>S+CPaq6u&GW<?5x>=z}r?v#>lFp(@K+%(4|4jU8y9(|$-
(urlOa$_F$vlEfxanXdY`iiK+<F;%voy0fH<B$zt4jWvyXgM3+*9*UWoBnYIjG&MJwA$C~mD0sSB{1qy~c{E<{RVrNkkEsXURkn+o-
Q;jyulEo@RukL>mVj>AP*_L&?<;(P+V;l?BTt!y9c=G%q(^_Oej?<>agT*tF^{dlp>3}=7AP_VRHHo{Uv0R%ja1$GJWA7%|8T>U2;woy`dVP#W(Z30NleD#V`BPJcP}cshdq&U?46_{mTCn>amwmq7
dVxvA>KPkqjU@c2A^+a>zU|wMoIRsq1YV{#_iT5YTXybIpU=({^Z>{EecmZ>G1Stzq1b`1}`;lVtmh>4=;?(hxsXqGD7?jQ(?)HV~Z1RTTf2huOZZLC-En@W(lv=&Ylo!T@6j^fGrYN&LmuYOts==0
Kbh_Xg?m-dw@ro(&cMPJrGNAp+-AG8AcQjVDIJ!Q&o9FpP-7*Q{ZUVW_l(azcNYrxiAu)QQg<aKLyX5?fZ{qzV;H4Z>(rO{5J-*D)cS`1sj@$9TiR-S9oQT58MmBuQZ#y)AtSY-?|Z)B--
4U$`I!PX*-{66?^mE00000I9|T
5+7WOe00H(pu)!z*3A-%@vBYQl0ssI200dcD
""".split()))))
