"""The words of keys: 4,096 of them, made for this project, short, and spelled much as they are spoken."""
from __future__ import annotations

WORDS = """
abacus able aboard about above acacia access account acorn acre acrobat act action active actor actual adagio adapt add admiral admire adobe adopt
adult advance advice aerial afar affair afford afloat agate age agent agile agree ahead aim air aisle alarm album alder alert alfalfa algae alias
alike alive all allegro alley allow alloy almond almost aloe aloha alone along alpaca alpine also altar alter alto always amaze amber amble ampere
ample amulet amuse analog anchor andante anemone angel angle angora animal ankle annex annual answer ant anthem antler anvil any apart apex apology
appeal apple apply apricot april apron aqua arbor arcade arch archer archive arctic area arena argue ark arm armor arnica aroma arrange arrive arrow
art artist arugula ascent ash ashore aside ask aspect aspen assist assure aster astral athlete atlas atom attach attend attic auburn auction audio
august aunt aura author auto autumn avenue average aviary avocado avoid awake award aware away axis axle azalea azure babble baboon baby back backup
bacon badge badger bagel bake balance balcony ball ballad ballet balloon ballot balm balsa balsam bamboo banana band bandage bangle banjo bank banner
baobab bar barber bard bargain barge barium bark barn baron barrel barrow basalt base basic basil basin basis basket bass bassoon baste bat batch bath
baton batter battery bay bazaar beach beacon bead beak beam bean bear beard beaver become bed bee beef beehive beet beetle begin begonia beige belfry
bell belong belt bench bend benefit beret berry beside best better bevel big bike billion billow bin bind bingo biology birch bird biscuit bisect
bismuth bison bite bittern black blade blanket blare blazer blend bless blimp blink bliss block blond bloom blossom blouse blue bluff blur board boat
bobbin bobcat body boil bold bolt bond bone bonfire bonnet bonobo bonus book bookend booklet boost boot booth border born boron borrow botany bottle
bottom boulder bounce bound bouquet bow bowl box boycott brace bracket braid brain bramble branch brand brandy brass brave bread break breath breeze
briar brick bride bridge brief brigade bright brim bring brioche brisk bristle brittle broad bromine bronco bronze brook broom broth brother brown
browse brunch brush bubble bucket buckeye buckle bud budget buffalo buffet buggy bugle build bulb bulge bulk bulrush bumper bundle bunk bunny bunting
buoy burdock burger burrow burst bus bush bushel bustard bustle butler butter button buy buzz buzzard bygone cabbage cabin cabinet cable cackle cactus
caddie cadence cadet cadmium cafe cage caiman cake calcium calf calico call calm calypso camel camera camp campion campus can canal canary candid
candle candy cane canine canoe canopy cantata canteen canvas canyon cap cape capital captain caption car caramel caravan caravel caraway carbon card
care career cargo caribou carol carp carpet carrot carry cart cartoon carve cascade case cash cashew cassia castle casual cat catalog catch catfish
cattle cause caution cavern caviar cedar ceiling celery cell cello cement census center central century ceramic cereal certain chain chair chalet
chalk chamber chance change channel chant chapter charade chard charger chariot charity charm chart charter chase chat cheap check cheddar cheek cheer
cheese cheetah chef cherish cherry chess chest chew chick chicory chief child chili chill chime chimney chin china chip chisel choice choir choose
chop chorale chorus chowder chrome chuckle chunk chutney cicada cinema cipher circle circus citizen citron city civic claim clam clamp clan clap
clarify clarity clash class classic clatter clause claw clay clean clear clef clerk clever click client cliff climate climb clinch cling clinic clink
clip cloak clock close closet cloth cloud clove clover clown club clue cluster coach coal coast coastal coat cobalt cobble cobra cocoa coconut cocoon
cod code coffee coil coin cold collage collar collect college collie colony color colt column comb combine come comedy comet comfort comic comma
command comment commit common compact compare compass compete compile complex compose compute conceal concept concert concise condor conduct conduit
cone confess confirm connect consent consist contact contain content contest control convert convey convoy coo cook cookie cool coop copper copy coral
cordial core cork corn cornel corner cornet corral corsage cosine cosmic cosmos cottage cotton cougar council count country county couple coupon
courage courier course court cousin cove cover cow cower coyote cozy crab cracker crackle cradle craft cramp crane crate crater crawl crayon cream
create creator credit creek crepe crest cricket crimson crinkle crisp critic crocus crop cross crouton crow crowd crown cruise crumb crumble crunch
crust crutch crystal cub cube cubic cubicle cuckoo cuddle cuff culture cup cupcake curator curb curd cure curfew curious curl curlew currant current
curry cursor curtain curve cushion custard custody custom cut cutlery cutter cycle cyclone cygnet cynic cypress dab dabble dad daily dairy daisy dam
damsel dance dandy dapper dare darken darling dash data date dawdle dawn day daytime dazzle deal dear debate debut decade decal decent decibel decide
decimal deck declare decline decode decor decoy deed deep deer defend define degree degrees delay delight deliver delta deluxe den dense dentist
depart depend depot depth deputy derby descend desert deserve design desk despite dessert detail detect detour develop device dewdrop diadem diagram
dial dialog diamond diary dice diesel diet differ dig digest digit dill dime dimmer dimple diner dinghy dingo dinner dip diploma dipper direct disc
discuss dish dismiss display distant distill disturb ditch ditto dive divert divide divine divisor dizzy dock doctor dodge dodo dog dogwood doll
dollar dolphin domain dome domino donkey donor donut doodle door dormant dot double dough dove dowel down dozen draft dragon drama drape drapery draw
dream dress dribble drift drill drink drip drive driven drizzle drop droplet drought drowsy drum drummer dry dryer duchess duck duet dugong dugout
duke dune duplex durable dusk dust dustpan duty dwell dynamic dynamo eager eagle ear earache earlobe early earn earring earth earwig ease easel east
eastern eat eatery ebony echo eclair eclipse ecology edge edit edition editor educate eel effect effort egg egret eight eighty either eject elastic
elation elbow elder elect elegant element eleven elf elite elk ellipse elm else email embark ember emblem embrace emerald emit emotion emperor empire
employ empower empty emu enable enclose encore end endless endure energy engage engine engrave enhance enjoy enlarge enlist enough enrich ensure enter
entice entire entity entry envoy epic epilog episode epoch equal equator equip equity era erase ermine errand escort essay essence estate esteem etch
eternal etude evening event evident evolve exact exam example excel except excerpt excite exhale exhibit exist exit exotic expand expanse expect
expense expert expire explain explode exploit explore export express extend extinct extra extract eye eyebrow eyelash eyelid fable fabric facade face
facet fact factor factory fade failure fair fairy faith falcon fall fallow fame family famous fan fancy fanfare far farm farther fashion fast father
fathom fatigue faucet favor fawn feast feather feature federal fee feel fellow felt fence fennel fern ferry fertile fest fetch few fiber fiction
fiddle field fiesta fifteen fifty fig figure file fill film filter final finale finance finch find fine finesse finger finish fire firefly fireman
firm first fish fit fitness five fix fixture flag flake flame flannel flapper flash flask flat flatter flavor flax flea fleece fleet flex flicker
flight flint flip flipper float flock floor flora florist flour flow fluent fluff fluid flute flutter fly foam focal focus fog foghorn foil fold
foliage folk follow fond fondue food foot footing footman for forage force forearm foreign foresee forever forge forget forgive fork form formal
format former formula fort fortune forty forum forward fossil foster found four fox fragile frame frantic freckle free freedom freeze freight fresco
fresh friday fridge friend frigate fringe fritter frog frolic front frost froth frugal fruit fudge fuel fugue fulcrum full fumble fun fund funnel
funny fur furnace furrow fusion future fuzzy gable gadfly gadget gain gala galaxy gallant gallery galley gallon gallop game gander gannet gap garage
garden garland garlic garment garnet garnish gas gasket gate gateway gather gaze gazebo gazelle gear gearbox gecko gem gene general genie genius
gentle genuine geology getaway giant gibbon gift giggle ginger ginkgo ginseng giraffe girder girl give glacial glacier glad glade glance glare glass
glaze glazier gleam glee glide glimmer glimpse glint glisten glitter globe globule glory gloss glove glow glucose glue gnat goal goat goblet gold
golden golf gondola good goose gopher gorge gorilla gorse gossip gourmet govern gown grace grade gradual grain grammar grand granite grant granule
grape graph grapple grasp grass gravel gravity gravy gray graze great grebe green greet grid grill grin grinder grip gristle grocer groom groove
ground group grouse grove grow growth grumble guard guava guess guest guide guitar gulf gull gum gumdrop guppy gurgle guru gust gutter gym gyrate
habit haddock haggle hair half halibut hallway halo halogen halt ham hamlet hammer hammock hamper hamster hand handle handsaw handset handy hanger
happen happy harbor hard harmony harness harp harpist harrow harvest hat hatch haul have haven hawk hay hayloft hazel head headway health heap hear
heart hearth heat heather heavy hedge height heir helium hello helm helmet help hemlock hen herald herb herbal hermit hero heron herring hexagon
hickory hidden hide high highway hike hill hilltop hind hinge hint hippo hire history hitch hive hobble hobby hockey hoist hold holiday holler hollow
holly home hominy honest honesty honey honor hood hoof hook hoop hoopoe hop hope hopeful hopper horizon horn hornet horse hosiery host hostel hot
hotdog hotel hound hour house hover howl hub huddle hug huge human humble humid humming humor hunch hunger hurdle hurry hurtle husky hut hybrid
hydrant hyena hyphen ibex ibis ice iceberg icebox icicle icon idea ideal igloo igneous ignite ignore iguana image imagine imitate immense immune
impact impala impart import impress improve impulse inch inclose include income indeed index indigo indoor induct infant inflate inform inhabit inhale
inherit initial ink inkpot inkwell inland inlet inn inner input inquire insect inside insist insole inspect inspire install instant instead insure
intact integer intend intent interim invent inverse invest invite invoice inward iodine iris iron island isle isolate issue italic item ivory ivy
jackal jackdaw jacket jackpot jade jaguar january jar jargon jasmine jasper java javelin jaw jay jazz jeans jeep jelly jersey jest jet jewel jigger
jigsaw jingle job jog jogger join joke jolly journal journey joust joy joyride jubilee judge judo jug juggle juice jukebox july jumble jump jumper
june jungle junior juniper jurist jury justice justify jute kale karate karma kayak kebab keen keep kelp kennel kernel kestrel ketchup kettle key
keyhole keynote keypad keyword kick kid kilo kilt kimono kin kind kindle kindred kinetic king kingdom kingpin kiosk kipper kit kitchen kite kitten
kiwi knack knee kneecap knit knob knock know knuckle koala krill krypton kumquat label labor lace lacquer ladder ladle lady lagoon lake lamb lambda
lament lamp lampoon lance land lantern lap lapdog lapel laptop lapwing larch large lark larva laser lasso last latch late later lather latin latte
lattice laugh launch laundry laurel law lawn lawsuit lawyer lax layer layout lead leaf leaflet league lean learn leash least leather leave lectern
lecture ledge leek leeward left leg legacy legal legato legend lemming lemon lemur lend length lens lentil leopard leotard lesson let letter lettuce
level lever lexicon liberty library lichen lid life lift light like lilac lily limber lime limit limpet linden line linen lingo link linnet lintel
lion lip liquid list listen liter literal lithium little live lively lizard load loaf lobby lobster local locale locate lock locket lockup locust
lodge loft log logbook logic long look lookout loom loop loose lord lot lotion lotus loud lounge lovage love lovely lower loyal loyalty lucid luck
lucky luggage lullaby lumber lunar lunch lunge lupin lure lush luxury lyric lyrical macaw machine macro magenta magic magma magnet magnify magpie mail
mailbox main maize majesty major make mallard mallet mallow malt mammal mammoth manage manatee mandate mango mankind manner manor manta mantle manual
map maple maraca marble march margin marina marine mariner mark market marlin maroon marsh marshal marten martin marvel mascot mask mason masonry
massive mast master mat match matinee matrix matter mature maxim maximum may mayfly mayor maze mazurka meadow meal mean measure media median medic
medium medley meerkat meet mellow melody melon melt member memo memory mend mental menthol mention mentor menu mercury mercy merge merit merlin
mermaid merry mesh message meteor meter method metro midday middle midland midst midway migrate mild mile mileage milk milkman mill million mimic
mimosa mind mine mineral mingle minim minimum mink minnow mint minuet minute miracle mirage mirror mislead mission mist mistake mistral mitten mix
mixture moat mobile mocha mockup model modern modest modify module modulus mogul moisten molar mold mole molten moment monarch monday money monitor
monkey monocle monsoon month mood moon moor moorhen moral morning morsel mortar mosaic moss motel moth mother motion motor motto mound mouse mouth
move movie mow mudflat muffin muffler mug mulch mule multi mumble mundane mural muse museum music muslin mustang mustard mutual muzzle myrtle myself
mystery myth name napkin narrate narrow narwhal nasal nation native natural nature navy near nearby neat nebula neck nectar need needle neglect neon
nerve nest net nettle network neutral neutron new newborn news newt next nibble nice nickel night nimble nine ninety nitrate noble nod node noise
nomad nomadic nominal nonstop noodle noon normal north nose nostril notable notch note notice notion nougat noun nourish nova novel novelty nowhere
nozzle nuance nuclear nudge nugget number numeral numeric nut nutmeg nuzzle nylon nymph oak oasis oat oatmeal obelisk obey object oblige oblique
oblong obscure observe obtain obtuse obvious occupy occur ocean ocelot octagon octave octet october octopus odd oddity odor off offbeat offer offhand
office offline offset oil okapi okra old olive omega omelet omen once ongoing onion online onset onward onyx opal opaque open opera operate opinion
opossum oppose optic optimal option opulent orange oration orbit orbital orchard orchid ordeal order ordinal oregano organ orient origami origin
oriole ornate oryx osmosis osprey ostrich otter ottoman ounce outback outcome outcrop outdoor outer outfit outgrow outing outlast outlaw outlet
outline outlook outpost output outside outward oval ovation oven overall overlap owl owlet own oxbow oxen oxford oxide oxygen oyster ozone pace
pacific pacify pack package packet pad paddle paddock padlock page pageant pagoda paint painter pair paisley palace palette pallet palm pamper pan
panama pancake panda panel panic pansy panther pantry papaya paper paprika papyrus parable parade paradox paragon parasol parcel pardon parent parity
park parka parkway parlor parody parrot parsley parsnip part partake partial partner party pass passage past pasta paste pastel pastime pastor pastry
pasture patch patent path patient patio patriot patrol patron pattern pave paw pay payment payroll peace peach peacock peanut pear pearl pebble pecan
peddler peek peel peewit pelican pen penalty pencil pendant penguin pennant penny pension peony people pepper percent perch perfect perform perfume
period permit perplex persist person peruse petal petrel petunia pewter phoenix phone photo phrase physics pianist piano piccolo pick pickax pickle
picnic picture pie pier pigeon piglet pigment pika pike pile pilfer pill pillar pillow pilot pimento pin pincer pine pinhole pink pint pinto pioneer
pipe pirate pit pitch pitcher pitfall pivot pixel pixie pizza placate place placid plain plan planet plank plant plasma plaster plate plateau platter
play player plaza please pledge plenty pliers plot plotter plover plow plug plum plumage plumber plume plunder plunge plural plus plush plywood pocket
pod podcast podium poem poet poetry point poise polar pole polecat police policy polish polite polka pollen polo polygon pomelo pond ponder pony
poodle pool popcorn poplar popular porch port portal portico portion possess post postage poster postman posture potato potluck potter pouch poultry
pounce pour powder power prairie praise prance prawn preach precede precept precise predict preface prefer prefix prelude premier premise premium
prepaid prepare present preside press presto presume pretend pretty pretzel prevail prevent preview price pride primary primate prime prince print
prior prism privacy private privet prize probe problem proceed process prodigy produce product profile program project prolong promise prompt pronoun
proof propel proper propose prosper protect protein protest proud prove provide provoke prowess prudent prune public publish pudding puddle puffin
puffy pull pulley pulp pulsar pulse pumice pump pumpkin punch pungent pupil puppet puppy pure purple purpose purr purse pursue pursuit push pushpin
put putter putty puzzle pylon pyramid python quail quaint quality quarry quart quarter quartz quaver quay queen quest quick quicken quiet quill quilt
quince quintet quit quiver quiz quokka quorum quota quote rabbit raccoon race rack racket radar radiant radiate radical radio radish radium radius
radon raffle rafter ragtime rail railway rain rainbow raisin rake rally ramp rampart ranch random range ranger rank ransom rapid rapport rapture rare
rascal rate ratio rattle raven ravine ravioli raw ray reach react read ready real reality realize realm reaper reason rebate rebound rebuild recall
recap receive recent recess recipe recite reckon recline recoil record recount recover recruit rectify recycle red redeem reduce redwing redwood reef
reel reenact refer referee refill refine reflect refocus reform refrain refresh refuel refuge refund regain regal regard regatta regent region regret
regular rejoice relapse relate relax relay release relic relief relieve relish rely remain remake remark remedy remind remnant remote remove render
renew renown rent repaint repair repeal repeat repel replace replica reply report reptile request require rescue reserve resin resist resolve resort
respect respond rest restore result resume retail retain retell rethink retina retire retort retrace retreat retro return reunion reunite reveal
revenue reverse review revise revisit revive revolve reward rewind rewrite rhino rhombus ribbon rice rich riddle ride ridge rigging right rigid rind
rinse ripe ripen ripple rise river rivet rivulet roach road roadway roam roar roast robe robin robot rock rocket rodeo roebuck roll romance romp rondo
roof rooftop rook room rooster rope rose roster rotary rotate rotor rotunda round roundup rouse routine routing rover row rowan rowboat royal rub
rubber ruby rudder ruff ruffle rug rule rumba rumble rummage run runaway rune runner runway rupture rural rush rust rustic rustle sable saddle saddler
safari safe safety saffron sage sail sailor salad salami salient saline salmon salon saloon salsa salt salute samba sample sanctum sand sandal sandbag
sandbar sapling sardine sash satchel satin sauce saucer sauna saunter sausage savanna save savor savory saw sawdust sawmill say scalar scale scallop
scamper scan scanner scarf scarlet scatter scenic scheme scholar school science scone scoop scooter scope score scout scrap scratch scrawl scream
screen screw scribe script scroll scrub scuba seafood seagull seal sealant seam seaport search seaside season seat seaweed secede second secret sector
secure sedge see seed seek seem seesaw segment seismic select self sell seminar senate send senior senna sense sensor septet sequel sequin sequoia
serene series sermon serpent serve service sesame session set setback setting settle seven several sewing sextant sextet shade shadow shake shale
shallot shallow shamble shampoo shanty shape share shark sharp shatter shawl shed sheen sheep sheer sheet shelf shell shelter sherbet sherpa shield
shift shimmer shin shine shingle ship shirt shiver shoe shop shopper shore short shout shovel show shower shrew shrike shrimp shrink shrub shudder
shuffle shunt shut shutter shuttle sibling sickle side siege sierra siesta sift sign signal signify silence silent silicon silk silly silo silver
similar simmer simple sincere sine sing single sink siphon siren sister sit sitcom site six sixteen sixty size sizzle skate skeptic sketch skewer ski
skill skillet skimmer skin skip skipper skirt sky skylark skyline slab slack slalom slate sled sleek sleep sleet sleeve slender slice slide slight
slim slipper slither sliver sloe slogan slope slot sloth slow slumber small smart smelt smile smith smooth smudge snack snail snake snap snapper
sneaker sneeze snipe snippet snooze snorkel snow snowman snug snuggle soak soap soapbox soccer social society sock socket soda sodium sofa soft soil
solace solar soldier sole solicit solid solo soloist solve solvent son sonar sonata song sonic sonnet soothe soprano sorbet sorcery sorghum sorrel
sort sound soup source south soy space spade spaniel spare spark sparkle sparrow spatula speak spear special species specify speckle speech speed
spell spend sphere spice spider spike spin spinach spindle spinner spiral spirit splash split sponge sponsor spool spoon sport spot sprawl spray
spread spring sprint sprout spruce square squash squeak squeeze squid squint squirm stable stack stadium staff stage stagger stain stair stalk stall
stamina stamp stand standby stanza staple star start startle state static station statue stature stay steady steak steam steep steeple steer stellar
stem stencil step stereo stew steward stick stiffen stirrup stitch stoat stock stomach stone stool stop storage store storied stork storm story stove
strait strand strange stratus straw stream street stretch stride strike string stripe stroll strong strudel student studio study stuff stumble stunt
sturdy style subdue subject submit subset subside subtle suburb subway succeed success suction sudden suffice suffix sugar suggest suit sulfur sultan
sum summary summer summit summon sun sunbeam sunbird sunday sundew sundial sunfish sunlit sunny sunrise sunroof sunset super superb supper supply
support supreme sure surface surfer surge surgeon surplus survey survive sustain swagger swallow swan swarm sweater sweep sweeper sweeten swelter
swift swim swimmer swing swirl switch swivel symbol symptom synergy syntax syrup system tabby table tableau tablet tackle taco tactic tadpole tail
tailor take talcum talent talk tall tally tamarin tanager tandem tangent tangle tango tank tankard tannery tape tapir target tariff tarnish taro tart
task tassel taste taunt tavern tawny tea teach teacup teak teal team teapot tear teddy teenage tell temper tempo tempt ten tenant tend tender tendril
tenfold tennis tenor tension tent tercet term termite tern terrace terrain terrier test text textile texture thank thatch thaw theater theme theorem
theory therapy thermal thesis thick thicket thimble thin thing think third thirsty thirty thistle thorax thorn thought thread three thrift thrill
thrive throat throw thrush thumb thunder tiara ticket tickle tidal tidbit tidy tie tiered tiger tight tile timber time timeout timpani tin tinker
tinkle tinsel tinted tiny tip tiptoe tire tissue titan title toast today toddler toenail toffee toggle toil token tomato tombola tone tongue tonic
tonnage tonsil tool toolbar toolbox tooth top topaz topic topple topsoil torch tornado torrent torso toss total totem toucan touch tour tourist
towboat towel tower town toy trace track tractor trade traffic trail trailer train trait tram trample transit trapeze trapper travel trawler tray
treat treaty treble tree trek trellis tremble tremor trend trestle triage tribe tribute trick trickle trident trifle trigger trilogy trinket trio trip
triple tripod triumph trivial trolley trooper trophy tropic trot trouble trout truck true truffle trumpet trunk trust truth try tsunami tuba tube
tuesday tug tugboat tulip tumble tuna tundra tune tunic tunnel turban turbine turbo turbot turkey turmoil turn turnip turnout turret turtle tussle
tutor tuxedo twang tweed twelve twenty twice twig twin twine twirl twist twitch two tycoon type typeset typhoon typical typist ultra umber umlaut
umpire unable unary uncanny uncle uncover undergo undo unfold unfurl unhook unicorn uniform unify union unique unison unit unite unity unload unlock
unmask unpack unravel unroll unseen unusual unveil unwind unwrap upbeat update upgrade uphill upkeep upland uplift uplink upload upper upright uprise
uproar upstage upswing uptake uptown upturn upward uranium urban urge urn usage use useful usher usual utensil utility utmost utopia vacant vaccine
valet valid valley valor value valve van vanilla vanish vantage vapor variety various varnish varsity vase vast vault veal vector velcro velvet vendor
veneer vent ventral venture venue veranda verb verbena verdict verify verse version vertex vertigo vessel vest vestige veteran via viaduct vibrant
vibrate vibrato victory video view vigor villa village vine vinegar vintage vinyl viola violet violin viper virtual virtue visible vision visit
visitor visor vista visual vital vitamin vivid vocal voice volcano vole volley voltage volume vortex vote vouch voucher vowel voyage vulcan wafer
waffle wage waggle wagon wagtail wait waiver wake walk walkway wall wallaby wallet walnut walrus waltz wand wander want warbler warden warm warmth
warrant warrior warthog wasabi wash wasp watch water wattage wave wavelet wax weaken wealth weasel weather weave weaver web webbing website wedding
wedge week weekend weevil welcome welder welfare well west western wetland wetsuit wharf wheat wheel wheeze whimper whimsy whippet whisk whisker
whisper whistle white whiten whittle wick wicket wide widget width wiggle wild wildcat willing willow win wind window wing wink winner winsome winter
wire wisdom wise wish witness wizard wobble wok wolf wombat wonder wood woodcut wool woolen word work worktop world worship worth wrangle wrapper
wreath wren wrestle wriggle wrinkle wrist writer written xenon yak yam yard yarn yarrow yawn year yeast yellow yelp yeti yield yodel yoga yogurt
yonder young younger youth yoyo yucca zebra zenith zero zest zigzag zinc zinnia zip zipper zircon zodiac zone zoo zoology zoom
""".split()
